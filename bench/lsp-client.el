;;; lsp-client.el --- Has Emacs (eglot) as a client of nullcheck_lsp  -*- lexical-binding: t -*-
;; Usage: emacs --batch -f package-initialize -l bench/lsp-client.el PROGRAM
;;   PROGRAM  a built nullcheck_lsp, such as crates/nullcheck_lsp/out/nullcheck_lsp
;; It opens a file, sees its diagnostic and that of a file that it doesn't open, edits, writes what the server offers, and ends
;; the server. Each thing that is seen is a line; the status is 0 where all of them were.

(require 'eglot)
(require 'flymake)

(defvar program (expand-file-name (pop command-line-args-left)))
(defvar folder (file-name-as-directory (make-temp-file "nullcheck" t)))
(defvar file (concat folder "A.java"))

(defun see (what holds)
  "Wait until HOLDS answers true of WHAT, and end with status 1 where it doesn't."
  (let ((turns 0))
    (while (and (not (funcall holds)) (< turns 3000))
      (accept-process-output nil 0.02)
      (setq turns (1+ turns)))
    (if (funcall holds)
        (princ (format "seen: %s\n" what))
      (princ (format "not seen: %s\n" what))
      (kill-emacs 1))))

(defun told ()
  "Line, column and words of each diagnostic of this buffer, as Flymake has them."
  (flymake-start)
  (mapcar (lambda (one)
            (goto-char (flymake-diagnostic-beg one))
            (list (line-number-at-pos) (current-column) (flymake-diagnostic-text one)))
          (flymake-diagnostics)))

(defun has-one (line column)
  "Whether this buffer has one diagnostic, at LINE and COLUMN, with a code."
  (let ((one (car (told))))
    (and (= (length (told)) 1) (= (car one) line) (= (cadr one) column)
         (string-match-p "may be null when it is dereferenced; cure: test it first" (caddr one)))))

(defun replace-once (old new)
  "Put NEW in place of OLD, where it stands first."
  (goto-char (point-min))
  (search-forward old)
  (replace-match new t t))

(write-region "class A {
  private String held = \"\";
  void forget() { this.held = null; }
  int size() { return this.held.length(); }
}
" nil file)
(write-region "class B {\n  int size() { String s = null; return s.length(); }\n}\n" nil (concat folder "B.java"))
(make-directory (concat folder ".git"))

(setq eglot-sync-connect 30
      eglot-send-changes-idle-time 0
      eglot-confirm-server-initiated-edits nil
      eglot-autoshutdown nil)
(add-to-list 'eglot-server-programs `(java-mode . (,program "--codes" "file:///CODES.md")))
(find-file file)
(java-mode)
(apply #'eglot (eglot--guess-contact))

(see "the open file's diagnostic" (lambda () (has-one 4 22)))
(with-current-buffer (find-file-noselect (concat folder "B.java"))
  (see "that of another file, once it is opened" (lambda () (has-one 2 39))))

(replace-once "this.held = null" "this.held = \"\U0001F600\"")
(eglot--signal-textDocument/didChange)
(see "none where the null is edited away" (lambda () (null (told))))
(replace-once "\"\U0001F600\"" "\"\U0001F600\"; this.held = null")
(eglot--signal-textDocument/didChange)
(see "it again, where the null is back" (lambda () (has-one 4 22)))

(goto-char (point-min))
(search-forward "this.held.len")
(let ((offered (eglot-code-actions (- (point) 8) (- (point) 8))))
  (see "a code action there" (lambda () (equal (mapcar (lambda (one) (plist-get one :title)) offered)
                                               '("write what is inferred of the field `held`"))))
  (eglot--apply-workspace-edit (plist-get (car offered) :edit)))
(see "what it writes: an import and the annotation"
     (lambda ()
       (save-excursion
         (goto-char (point-min))
         (looking-at "import org.checkerframework.checker.nullness.qual.\\*;\nclass A {\n  private @Nullable String held"))))
(eglot--signal-textDocument/didChange)
(see "the diagnostic behind it, a line further down" (lambda () (has-one 5 22)))

(let ((server (eglot-current-server)))
  (set-buffer-modified-p nil)
  (eglot-shutdown server)
  (see "the server's end" (lambda () (not (jsonrpc-running-p server)))))
(delete-directory folder t)
