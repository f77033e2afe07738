;;; bpfdb-dap.el --- bpfdb in dap-mode, with steps back  -*- lexical-binding: t -*-

;; (load "/usr/local/share/bpfdb/bpfdb-dap.el"), then M-x bpfdb, or M-x dap-debug.

(require 'dap-mode)

(defvar bpfdb-dap-program '("bpfdb-dap")
  "The words by which the adapter is called.")

(dap-register-debug-provider
 "bpfdb" (lambda (configuration) (plist-put configuration :dap-server-path bpfdb-dap-program)))

(dap-register-debug-template
 "bpfdb" (list :type "bpfdb" :request "launch" :name "bpfdb"))

;;;###autoload
(defun bpfdb (program context)
  "Debug PROGRAM, an object of clang, a listing or words, with the file CONTEXT (none if empty)."
  (interactive "fProgram: \nsContext: ")
  (dap-debug (append (list :type "bpfdb" :request "launch" :name "bpfdb" :program (expand-file-name program))
                     (unless (string-empty-p context) (list :context (expand-file-name context))))))

(defun bpfdb-step-back ()
  "Go back a line; calls are passed."
  (interactive)
  (dap--step "stepBack" (dap--cur-session-or-die)))

(defun bpfdb-reverse-continue ()
  "Go back to a breakpoint, or to the beginning of the history."
  (interactive)
  (dap--step "reverseContinue" (dap--cur-session-or-die)))

(defun bpfdb-ask (line)
  "Obey LINE, a command of bpfdb such as `undo', `origin r0' or `info history', and show its reply."
  (interactive "sbpfdb: ")
  (dap--send-message
   (dap--make-request "evaluate" (list :expression (concat ":" line) :context "repl"))
   (lambda (answer)
     (message "%s" (if (gethash "success" answer) (gethash "result" (gethash "body" answer)) (gethash "message" answer))))
   (dap--cur-session-or-die)))

(defun bpfdb-undo ()
  "Take back the last command, edits too."
  (interactive)
  (bpfdb-ask "undo"))

(defun bpfdb-redo ()
  "Make the command again that was taken back last."
  (interactive)
  (bpfdb-ask "redo"))

(provide 'bpfdb-dap)
;;; bpfdb-dap.el ends here
