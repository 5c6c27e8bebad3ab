;;; hgdb.el --- Designs of hgdb, and sessions over them  -*- lexical-binding: t; -*-

;; A mode for designs (.hg), and what dap-mode and dape need to debug them through `hgdb-dap'.  In an init file:
;;
;;   (add-to-list 'load-path "PREFIX/share/emacs/site-lisp")
;;   (require 'hgdb)
;;
;; With dap-mode, `M-x dap-debug' has a template `hgdb: this design', over the stimulus beside the design and the module that stands last in it;
;; `hgdb-step-back' (C-c C-b in a design) and `hgdb-reverse-continue' (C-c C-r) go back in time.  With dape, `M-x dape' has a configuration `hgdb'.

;;; Code:

(defgroup hgdb nil "Designs of hgdb." :group 'languages)

(defcustom hgdb-adapter "hgdb-dap"
  "The command that stands between an editor and hgdb."
  :type 'string)

(defcustom hgdb-log nil
  "A file that keeps each message of a session, or nil."
  :type '(choice (const nil) file))

(defvar hgdb-mode-syntax-table
  (let ((table (make-syntax-table)))
    (modify-syntax-entry ?/ ". 12" table)
    (modify-syntax-entry ?\n ">" table)
    (modify-syntax-entry ?' "w" table)
    (modify-syntax-entry ?_ "w" table)
    table))

(defconst hgdb-font-lock-keywords
  `((,(regexp-opt '("module" "input" "output" "wire" "reg" "inst" "let" "comb" "ff" "clk" "import" "if" "else" "for" "in" "gen" "case" "default") 'words)
     . font-lock-keyword-face)
    (,(regexp-opt '("bits" "cat" "zext" "mux" "all" "any" "parity") 'words) . font-lock-builtin-face)
    ("\\_<[0-9]+\\(?:'\\(?:h[0-9a-fA-F]+\\|d[0-9]+\\)\\)?\\_>" . font-lock-constant-face)))

(defvar hgdb-mode-map
  (let ((map (make-sparse-keymap)))
    (define-key map (kbd "C-c C-b") #'hgdb-step-back)
    (define-key map (kbd "C-c C-r") #'hgdb-reverse-continue)
    map))

;;;###autoload
(define-derived-mode hgdb-mode prog-mode "hgdb"
  "A mode for the designs of hgdb.  \\{hgdb-mode-map}"
  (setq-local comment-start "// " comment-end "")
  (setq-local font-lock-defaults '(hgdb-font-lock-keywords)))

;;;###autoload
(add-to-list 'auto-mode-alist '("\\.hg\\'" . hgdb-mode))

(defun hgdb-top (source)
  "The module that stands last in the file SOURCE: mostly the top."
  (with-temp-buffer
    (insert-file-contents source)
    (goto-char (point-max))
    (and (re-search-backward "\\_<module[ \t\n]+\\([A-Za-z][A-Za-z0-9_]*\\)" nil t) (match-string 1))))

(defun hgdb-adapter-command ()
  "The command that is started, with its words."
  (append (list hgdb-adapter) (and hgdb-log (list "--log" (expand-file-name hgdb-log)))))

(defun hgdb-completed (given)
  "GIVEN, a plist, with what it leaves out by the source that is looked at."
  (let* ((source (expand-file-name (or (plist-get given :source) (buffer-file-name) (error "No design is open"))))
         (made (list :type "hgdb" :request "launch" :name "hgdb" :mode "keep" :source source
                     :stimulus (concat (file-name-sans-extension source) ".stim") :top (hgdb-top source)
                     :cwd (file-name-directory source))))
    (while given
      (setq made (plist-put made (pop given) (pop given))))
    (plist-put made :source source)))

;; dap-mode

(declare-function dap-register-debug-provider "dap-mode")
(declare-function dap-register-debug-template "dap-mode")
(declare-function dap--cur-active-session-or-die "dap-mode")
(declare-function dap--debug-session-thread-id "dap-mode")
(declare-function dap--send-message "dap-mode")
(declare-function dap--make-request "dap-mode")
(declare-function dap--resp-handler "dap-mode")
(declare-function dap--resume-application "dap-mode")

(defun hgdb--back (command)
  "Ask the session that is looked at for COMMAND, which goes back in time."
  (let* ((session (dap--cur-active-session-or-die)) (thread (dap--debug-session-thread-id session)))
    (unless thread (error "The session has not stopped"))
    (dap--send-message (dap--make-request command (list :threadId thread)) (dap--resp-handler) session)
    (dap--resume-application session)))

(defun hgdb-step-back ()
  "Go to the statement that was executed before."
  (interactive)
  (hgdb--back "stepBack"))

(defun hgdb-reverse-continue ()
  "Run backwards to the nearest breakpoint, or to the start."
  (interactive)
  (hgdb--back "reverseContinue"))

(with-eval-after-load 'dap-mode
  (dap-register-debug-provider
   "hgdb" (lambda (given) (plist-put (hgdb-completed given) :dap-server-path (hgdb-adapter-command))))
  (dap-register-debug-template "hgdb: this design" (list :type "hgdb" :request "launch" :name "hgdb: this design")))

;; dape

(defvar dape-configs)

(defun hgdb-source ()
  "The design that is looked at."
  (expand-file-name (or (buffer-file-name) (error "No design is open"))))

(defun hgdb-stimulus ()
  "The stimulus beside the design that is looked at."
  (concat (file-name-sans-extension (hgdb-source)) ".stim"))

(defun hgdb-this-top ()
  "The top of the design that is looked at."
  (hgdb-top (hgdb-source)))

(with-eval-after-load 'dape
  (add-to-list 'dape-configs
               `(hgdb modes (hgdb-mode) command ,hgdb-adapter command-args ,(cdr (hgdb-adapter-command)) :type "hgdb" :request "launch" :mode "keep"
                      :source hgdb-source :stimulus hgdb-stimulus :top hgdb-this-top)))

(provide 'hgdb)
;;; hgdb.el ends here
