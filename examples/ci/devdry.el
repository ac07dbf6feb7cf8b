;;; devdry.el --- devdry over the file of a buffer  -*- lexical-binding: t -*-
;; `M-x devdry' looks at the rules or the database file of the buffer, and `M-x next-error' goes from message to message;
;; remarks on style and on comments are warnings. Emacs reads `--format=gcc' by its own patterns, so that
;; `M-x compile RET devdry verify --no-summary --format=gcc rules/*.rules' does as well.
(require 'compile)
(defun devdry ()
  "Run devdry over the file of this buffer."
  (interactive)
  (compile (format (if (string-suffix-p ".hwdb" buffer-file-name)
                       "devdry update --strict --ignore comments --format=gcc %s > /dev/null"
                     "devdry verify --strict --no-summary --ignore comments --format=gcc %s")
                   (shell-quote-argument buffer-file-name))))
(provide 'devdry)
;;; devdry.el ends here
