;;; emacs.el --- What Emacs shows of a document by eglot  -*- lexical-binding: t -*-
;; Run by tests/editors/open as `emacs --batch -l emacs.el`, with the lines of docs/SERVER.md for Emacs in the file
;; $RAST_LINES, and the document in $RAST_DOCUMENT.
(require 'package)
(package-initialize)
(require 'eglot)
(require 'flymake)
(require 'imenu)

(defun rast-fail (text &rest arguments)
  (princ (concat "emacs: " (apply #'format text arguments) "\n") #'external-debugging-output)
  (kill-emacs 1))

(defun rast-check (is-so text &rest arguments)
  (unless is-so (apply #'rast-fail text arguments)))

(defun rast-wait (text holds)
  "Wait until HOLDS returns non-nil."
  (let ((tries 1000))
    (while (and (> tries 0) (not (funcall holds)))
      (accept-process-output nil 0.01)
      (setq tries (1- tries)))
    (rast-check (> tries 0) "waited in vain: %s" text)))

(define-derived-mode rust-mode prog-mode "Rust")
(load (getenv "RAST_LINES") nil t t)
(setq eglot-sync-connect t eglot-autoshutdown nil eglot-send-changes-idle-time 0.01)

(find-file (getenv "RAST_DOCUMENT"))
(rust-mode)
(defvar rast-diagnostics nil "What the server published last.")
(cl-defmethod eglot-handle-notification :after
  (_server (_method (eql textDocument/publishDiagnostics)) &key _uri diagnostics &allow-other-keys)
  (setq rast-diagnostics (append diagnostics nil)))
(apply #'eglot (eglot--guess-contact))

(defun rast-ask (method &rest more)
  (jsonrpc-request (eglot--current-server-or-lose) method
                   (append (list :textDocument (eglot--TextDocumentIdentifier)) more)))

(rast-wait "a diagnostic" (lambda () (= 1 (length rast-diagnostics))))
(rast-check (equal "expected R_CURLY" (plist-get (car rast-diagnostics) :message)) "message")

;; The brace that is missing.
(goto-char (point-min))
(forward-line 4)
(insert "}\n")
(eglot--signal-textDocument/didChange)
(rast-wait "no diagnostic" (lambda () (null rast-diagnostics)))

(let ((symbols (rast-ask :textDocument/documentSymbol)))
  (rast-check (and (= 1 (length symbols)) (equal "main" (plist-get (aref symbols 0) :name))) "symbols"))
(rast-check (assoc "main" (let ((index (eglot-imenu))) (or (cdr (assoc "Function" index)) index))) "imenu: %S" (eglot-imenu))
(rast-check (= 2 (length (rast-ask :textDocument/foldingRange))) "folds")
(let ((selected (aref (rast-ask :textDocument/selectionRange :positions [(:line 2 :character 8)]) 0)))
  (rast-check (plist-get selected :parent) "selection"))
(let* ((together (rast-ask :textDocument/documentHighlight :position '(:line 3 :character 4)))
       (start (plist-get (plist-get (aref together 0) :range) :start)))
  (rast-check (and (= 2 (length together)) (= 1 (plist-get start :line)) (= 18 (plist-get start :character))) "highlights"))
(let ((data (plist-get (rast-ask :textDocument/semanticTokens/full) :data)))
  (rast-check (and (zerop (% (length data) 5)) (= 2 (aref data 2))) "tokens"))

;; Each letter that is typed is a change of its own. One of two units of UTF-16 is typed with the rest of its line: eglot
;; never ends where it is told of a message in the middle of such a letter, as one of the text before may be.
(goto-char (point-min))
(insert "// 𐐀\n")
(dolist (letter (string-to-list "struct é {\n"))
  (insert letter)
  (eglot--signal-textDocument/didChange))
(rast-wait "diagnostics of what was typed" (lambda () rast-diagnostics))
(delete-region (point-min) (point))
(eglot--signal-textDocument/didChange)
(rast-wait "no diagnostic again" (lambda () (null rast-diagnostics)))

(eglot-shutdown (eglot--current-server-or-lose))
(princ "emacs: passed\n")
(set-buffer-modified-p nil)
(kill-emacs 0)
