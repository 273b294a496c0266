;;; ipg-mode.el --- Major mode for grammars of ipg  -*- lexical-binding: t -*-

;;; Commentary:
;; Colours, comments and strings of Interval Parsing Grammars.
;; (add-to-list 'load-path "FOLDER") (require 'ipg-mode)

;;; Code:

(defvar ipg-mode-syntax-table
  (let ((table (make-syntax-table)))
    (modify-syntax-entry ?# "<" table)
    (modify-syntax-entry ?\n ">" table)
    (modify-syntax-entry ?\" "\"" table)
    (modify-syntax-entry ?\\ "\\" table)
    (modify-syntax-entry ?_ "w" table)
    (dolist (sign (string-to-list "-/;,.=?:+*%<>&|^!"))
      (modify-syntax-entry sign "." table))
    table)
  "Comments, strings and words of ipg.")

(defconst ipg-mode-keywords
  `((,(regexp-opt '("for" "to" "do" "switch" "case" "else" "where" "many" "tok") 'words) . font-lock-keyword-face)
    (,(regexp-opt '("start" "end" "EOI") 'words) . font-lock-constant-face)
    (,(regexp-opt '("U8" "U16LE" "U16BE" "U32LE" "U32BE" "U64LE" "U64BE" "Bytes") 'words) . font-lock-type-face)
    ("\\_<\\(?:0x[[:xdigit:]]+\\|[0-9]+\\)" . font-lock-constant-face)
    ("\\<[[:alpha:]_][[:alnum:]_]*\\>" . font-lock-variable-name-face))
  "Words of ipg and their faces.")

;;;###autoload
(define-derived-mode ipg-mode prog-mode "IPG"
  "Major mode for grammars of ipg."
  (setq-local comment-start "# ")
  (setq-local comment-end "")
  (setq-local font-lock-defaults '(ipg-mode-keywords)))

;;;###autoload
(add-to-list 'auto-mode-alist '("\\.ipg\\'" . ipg-mode))

(provide 'ipg-mode)
;;; ipg-mode.el ends here
