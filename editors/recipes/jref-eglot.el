;;; jref-eglot.el --- jref for Java files, by eglot  -*- lexical-binding: t -*-

;; Emacs 29 and later have eglot; for Emacs 26 to 28 it is a package.  In the init file:
;;   (load "PATH/editors/recipes/jref-eglot.el")
;; Then M-x eglot-rename renames what is at point, M-. goes to where it is declared, M-? lists its
;; uses.  To name the files that are the program, with paths from the project's folder, put into
;; the project's .dir-locals.el:
;;   ((nil . ((eglot-workspace-configuration . (:jref (:files ["src/*.java"]))))))

;;; Code:

(require 'eglot)

(defvar jref-editors
  (expand-file-name ".." (file-name-directory (or load-file-name buffer-file-name)))
  "The folder that has `jref-lsp'.")

(add-to-list 'eglot-server-programs
             `((java-mode java-ts-mode) . (,(expand-file-name "jref-lsp" jref-editors))))

(add-hook 'java-mode-hook #'eglot-ensure)
(add-hook 'java-ts-mode-hook #'eglot-ensure)

(provide 'jref-eglot)
;;; jref-eglot.el ends here
