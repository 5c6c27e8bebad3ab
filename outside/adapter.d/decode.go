// Decodes each message of standard input by the types of go-dap, and prints what kind each is.
package main

import (
	"bufio"
	"fmt"
	"io"
	"os"
	"reflect"

	"github.com/google/go-dap"
)

func main() {
	reader := bufio.NewReader(os.Stdin)
	for {
		message, err := dap.ReadProtocolMessage(reader)
		if err == io.EOF {
			return
		}
		if err != nil {
			fmt.Println("no message:", err)
			os.Exit(1)
		}
		fmt.Println(reflect.TypeOf(message).Elem().Name())
	}
}
