;;; viaduct.el --- Sources of Viaduct, with its language server  -*- lexical-binding: t -*-
;; Load this file, and M-x eglot starts the server in a buffer of a source.
(defvar viaduct-mode-syntax-table
  (let ((table (make-syntax-table)))
    (modify-syntax-entry ?/ ". 12" table)
    (modify-syntax-entry ?\n ">" table)
    (modify-syntax-entry ?_ "w" table)
    table))

(define-derived-mode viaduct-mode prog-mode "Viaduct"
  "A mode for sources of Viaduct."
  (setq-local comment-start "// "))

(add-to-list 'auto-mode-alist '("\\.via\\'" . viaduct-mode))
(with-eval-after-load 'eglot
  (add-to-list 'eglot-server-programs '(viaduct-mode . ("viaduct" "lsp"))))

(provide 'viaduct)
;;; viaduct.el ends here
