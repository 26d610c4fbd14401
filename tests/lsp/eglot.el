;; Emacs edits a file with jx-lsp by eglot, and prints what it shows after each step, as `N STEP: OFFSET MESSAGE` or `N STEP: accepted`.
;; After each step it writes what it has to NAME.N, so that others can check it. Offsets count bytes from 0.
(setq native-comp-deferred-compilation nil)
(require 'eglot)
(setq eglot-sync-connect 60
      coding-system-for-read 'utf-8-unix
      coding-system-for-write 'utf-8-unix)
(defvar jx-name (getenv "JX_LSP_TEXT"))
(defvar jx-step 0)
(defvar jx-told -1 "The version of the text that the server told of last.")
(cl-defmethod eglot-handle-notification :after (_server (_method (eql textDocument/publishDiagnostics)) &key version &allow-other-keys)
  (setq jx-told (or version jx-told)))
(find-file jx-name)
(js-mode)
(buffer-enable-undo)
(eglot '(js-mode) (cons 'transient default-directory) 'eglot-lsp-server (list (getenv "JX_LSP_PROGRAM")) "json")

(defun jx-shown ()
  "What flymake shows."
  (if (null (flymake-diagnostics))
      "accepted"
    (mapconcat (lambda (mark)
                 (format "%d %s" (1- (position-bytes (flymake-diagnostic-beg mark)))
                         (replace-regexp-in-string "\\`jx \\[[^]]*\\]: " "" (flymake-diagnostic-text mark))))
               (flymake-diagnostics) " and ")))

(defun jx-show (step)
  "Waits until the server tells of this version of the text, a minute at most, and prints what is shown then."
  (eglot--signal-textDocument/didChange)
  (let ((end (+ 60 (float-time))))
    (while (and (< jx-told eglot--versioned-identifier) (< (float-time) end))
      (accept-process-output nil 0.1)))
  (flymake-start nil)
  (setq jx-step (1+ jx-step))
  (write-region nil nil (format "%s.%d" jx-name jx-step) nil 'quiet)
  (princ (format "%d %s: %s%s\n" jx-step step (if (< jx-told eglot--versioned-identifier) "late: " "") (jx-shown))))

(defmacro jx-do (step &rest edits)
  "Makes edits, shows what they come to, and undoes them."
  `(progn (undo-boundary) (goto-char (point-min)) ,@edits (jx-show ,step)
          (undo-boundary) (setq last-command nil) (undo) (jx-show "undone")))

(jx-show "opened")
(jx-do "typed" (insert "x"))
(jx-do "typed behind a line" (end-of-line) (insert "\n[é😀,"))
(jx-do "an emoji deleted" (search-forward "😀") (delete-char -1))
(jx-do "many bytes pasted" (goto-char (point-max)) (insert (apply #'concat (make-list 2000 "[1, \"é😀\"], "))))
;; In an empty buffer there is no character to mark.
(jx-do "all but a byte deleted" (delete-region (1+ (point-min)) (point-max)))
(eglot-shutdown (eglot-current-server))
