;;; drive.el --- what the tests have Emacs do  -*- lexical-binding: t -*-

;;; Code:

(package-initialize)
(setq eglot-confirm-server-initiated-edits nil
      make-backup-files nil
      auto-save-default nil
      create-lockfiles nil)

;; The user says yes to each question: eglot asks before it edits files that aren't open.
(fset 'y-or-n-p (lambda (&rest _) t))

(defvar drive-folder (file-name-as-directory (getenv "JREF_TEST_FOLDER")))

(defun drive-wait (what done)
  "Wait until DONE holds, a minute at most, or else tell WHAT it was."
  (let ((ends (+ (float-time) 60)))
    (while (not (funcall done))
      (when (> (float-time) ends)
        (error "Waited in vain for %s" what))
      (accept-process-output nil 0.05))))

(defun drive-edit (name)
  "Visit the file NAME, with the server started."
  (find-file (concat drive-folder name))
  (setq-local project-find-functions (list (lambda (_) (cons 'transient drive-folder))))
  (unless (eglot-current-server)
    (call-interactively #'eglot))
  (drive-wait "the server" #'eglot-current-server))

(defun drive-put (name value)
  "Print VALUE into the file NAME."
  (let ((coding-system-for-write 'utf-8))
    (write-region (format "%s" value) nil (concat drive-folder name))))

(defun drive-java-buffers ()
  "The buffers that visit Java files."
  (seq-filter (lambda (it) (string-suffix-p ".java" (or (buffer-file-name it) ""))) (buffer-list)))

(defun drive-idle ()
  "What eglot does when a user pauses: send the server what changed."
  (dolist (buffer (drive-java-buffers))
    (with-current-buffer buffer
      (eglot--signal-textDocument/didChange))))

(defun drive-save ()
  "Save all that changed."
  (save-some-buffers t))

(defun drive-undo ()
  "Undo the last change of each buffer, and write what comes of it into a folder `undone'."
  (make-directory (concat drive-folder "../undone"))
  (dolist (buffer (drive-java-buffers))
    (with-current-buffer buffer
      (undo-start)
      (while (and (listp pending-undo-list) pending-undo-list (buffer-modified-p))
        (undo-more 1))
      (let ((name (file-name-nondirectory buffer-file-name)))
        (write-region nil nil (concat drive-folder "../undone/" name))))))

(provide 'drive)
;;; drive.el ends here
