;;; session.el --- A session of a user of dap-mode, told line by line  -*- lexical-binding: t; -*-

;; Run by outside/adapter: emacs -q --batch -l session.el SHIM PROGRAM <COMMANDS
;;
;; A line of the standard input is what a user does: open FILE, break LINE [if CONDITION], debug [TOP], next, back, reverse, continue, values, eval
;; EXPRESSION, quit.  It is told behind `>', and below it, where the session stands then: the frame, and the buffer, line and text at point.

(setq native-comp-deferred-compilation nil native-comp-jit-compilation nil)
(package-initialize)
(require 'dap-mode)
(load (getenv "HGDB_EL") nil t)

(defvar shown 0 "How often a frame was shown.")
(defvar over nil "Whether the session has ended.")

(defun await (test)
  "Hears what comes until TEST holds, for some time at most."
  (let ((last (+ (float-time) (string-to-number (or (getenv "HGDB_SECONDS") "60")))))
    (while (and (not (funcall test)) (< (float-time) last))
      (accept-process-output nil 0.02))
    (unless (funcall test) (message "it did not come") (kill-emacs 1))))

(defun asked (command &rest arguments)
  "The body of the response to a request."
  (let ((told 'none))
    (dap--send-message (dap--make-request command arguments) (lambda (it) (setq told it)) (dap--cur-session))
    (await (lambda () (not (eq told 'none))))
    (or (gethash "body" told) (gethash "message" told))))

(defun frame ()
  "The frame that is looked at."
  (dap--debug-session-active-frame (dap--cur-session)))

(defun where ()
  "Tells the frame that is looked at, and where point is."
  (princ (if (gethash "source" (frame))
             (format "%s, %s:%d: %s\n" (gethash "name" (frame)) (buffer-name) (line-number-at-pos) (string-trim (thing-at-point 'line t)))
           (format "%s\n" (gethash "name" (frame))))))

(defun go (command)
  "Does COMMAND, and tells where the session stands then."
  (let ((before shown))
    (funcall command)
    (await (lambda () (< before shown)))
    (where)))

(defun break (line condition)
  "Puts a breakpoint on LINE of the buffer."
  (goto-char (point-min))
  (forward-line (1- (string-to-number line)))
  (dap-breakpoint-add)
  (when condition
    (cl-letf (((symbol-function 'read-string) (lambda (&rest _) condition)))
      (call-interactively #'dap-breakpoint-condition))))

(defun values ()
  "Tells the variables of each scope."
  (dolist (scope (gethash "scopes" (asked "scopes" :frameId (gethash "id" (frame)))))
    (let ((rows (gethash "variables" (asked "variables" :variablesReference (gethash "variablesReference" scope)))))
      (when rows
        (princ (format "%s: %s\n" (gethash "name" scope)
                       (mapconcat (lambda (it) (format "%s=%s" (gethash "name" it) (gethash "value" it))) rows " ")))))))

(defun evaluate (expression)
  "Tells the value of EXPRESSION."
  (let ((told (asked "evaluate" :expression expression :frameId (gethash "id" (frame)))))
    (princ (format "%s\n" (if (stringp told) told (gethash "result" told))))))

(defun obey (line program)
  "Does what LINE says, where the template `hgdb: this design' starts PROGRAM."
  (princ (concat "> " line "\n"))
  (pcase (split-string line)
    (`("open" ,file) (find-file file) (princ (format "%s\n" major-mode)))
    (`("break" ,number . ,rest) (break number (and rest (cadr (split-string line " if ")))))
    (`("debug" . ,top)
     (let ((template (copy-tree (cdr (assoc "hgdb: this design" dap-debug-template-configurations)))))
       (go (lambda () (dap-debug (append template (list :program program) (and top (list :top (car top)))))))))
    ('("next") (go (lambda () (call-interactively #'dap-next))))
    ('("continue") (go (lambda () (call-interactively #'dap-continue))))
    ('("back") (go #'hgdb-step-back))
    ('("reverse") (go #'hgdb-reverse-continue))
    ('("values") (values))
    (`("eval" . ,_) (evaluate (substring line 5)))
    ('("quit") (call-interactively #'dap-disconnect) (await (lambda () over)) (princ "terminated\n"))
    (_ (error "No command: %s" line))))

(pcase-let ((`(,shim ,program) command-line-args-left))
  (setq command-line-args-left nil hgdb-adapter shim dap-auto-configure-features nil dap-print-io nil)
  (add-hook 'dap-stack-frame-changed-hook
            (lambda (session) (when (dap--debug-session-active-frame session) (setq shown (1+ shown)))))
  (add-hook 'dap-terminated-hook (lambda (_) (setq over t)))
  (let ((lines (split-string (with-temp-buffer (insert-file-contents "/dev/stdin") (buffer-string)) "\n" t)))
    (dolist (line lines)
      (obey line program))))
;;; session.el ends here
