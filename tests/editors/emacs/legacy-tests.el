;;; legacy-tests.el --- Tests of legacy.el -*- lexical-binding: t -*-

;;; Commentary:

;; Run by tests/editors/test_emacs.py, which names the server and the folder of files in the variables LEGACY_COMMAND and
;; LEGACY_FILES.  The expected bytes are those of editors/damage/files.py.

;;; Code:

(require 'ert)
(require 'legacy)

(setq legacy-lsp-command (split-string (getenv "LEGACY_COMMAND") "\n")
      make-backup-files nil
      inhibit-message nil)

(defconst legacy-tests--folder (file-name-as-directory (getenv "LEGACY_FILES")))

(defun legacy-tests--bytes (file)
  "Return the bytes of FILE."
  (with-temp-buffer
    (set-buffer-multibyte nil)
    (insert-file-contents-literally file)
    (buffer-string)))

(defun legacy-tests--write (file bytes)
  "Write BYTES to FILE."
  (let ((coding-system-for-write 'no-conversion))
    (write-region bytes nil file nil 'silent)))

(defmacro legacy-tests--with (spec &rest body)
  "Copy a file and open it: SPEC is its name and a variable for its path.  Run BODY in its buffer."
  (declare (indent 1))
  (let ((path (nth 1 spec)))
    `(let ((,path (make-temp-file (expand-file-name ,(concat (car spec) "-") legacy-tests--folder) nil ,(concat "." (car spec)))))
       (copy-file (expand-file-name ,(concat (car spec) ".before") legacy-tests--folder) ,path t)
       (save-window-excursion
         (legacy-find-file ,path)
         (unwind-protect
             (progn ,@body)
           (set-buffer-modified-p nil)
           (kill-buffer)
           (delete-file ,path))))))

(defun legacy-tests--edit (old new)
  "Replace the first OLD by NEW, a character at a time as a person types."
  (goto-char (point-min))
  (let ((case-fold-search nil))
    (search-forward old))
  (delete-char (- (length old)))
  (dolist (it (string-to-list new)) (insert it)))

(defun legacy-tests--names ()
  "Return the names of the files of editors/damage."
  (split-string (with-temp-buffer
                  (insert-file-contents (expand-file-name "list" legacy-tests--folder))
                  (buffer-string))
                "\n" t))

;; A test for each file: it is opened, edited, and saved three times, and has exactly the bytes of the edit.
(dolist (row (legacy-tests--names))
  (let ((name (car (split-string row))))
    (eval
     `(ert-deftest ,(intern (concat "legacy-saves-" name)) ()
        (legacy-tests--with (,name path)
          (let ((wanted (legacy-tests--bytes (expand-file-name ,(concat name ".after") legacy-tests--folder))))
            (legacy-tests--edit "ABCD" "AxCD")
            (save-buffer)
            (should-not (buffer-modified-p))
            (legacy-tests--edit "ABCD" "AByD")
            (save-buffer)
            (should (equal (legacy-tests--bytes path) wanted))
            (insert "z")
            (delete-char -1)
            (save-buffer)
            (should (equal (legacy-tests--bytes path) wanted)))))
     t)))

(ert-deftest legacy-refuses-what-the-encoding-lacks ()
  (legacy-tests--with ("shift_jis-repeated" path)
    (let ((before (legacy-tests--bytes path)))
      (insert "é")
      (let ((said (should-error (save-buffer) :type 'legacy-refused)))
        (should (string-match-p "line 1, character 1: U\\+00E9" (error-message-string said))))
      (should (buffer-modified-p))
      (should (equal (legacy-tests--bytes path) before)))))

(ert-deftest legacy-refuses-a-file-that-another-program-changed ()
  (legacy-tests--with ("euc-jp-rows" path)
    (legacy-tests--edit "ABCD" "AxCD")
    (legacy-tests--write path "other\n")
    ;; (Emacs asks on its own account, and is answered yes)
    (cl-letf (((symbol-function 'yes-or-no-p) #'always) ((symbol-function 'ask-user-about-supersession-threat) #'ignore))
      (should-error (save-buffer) :type 'legacy-refused))
    (should (equal (legacy-tests--bytes path) "other\n"))))

(ert-deftest legacy-keeps-a-backup-by-copying ()
  (legacy-tests--with ("gbk-damaged" path)
    (let ((before (legacy-tests--bytes path)) (make-backup-files t) (backup-directory-alist nil))
      (set-file-modes path #o640)
      (legacy-tests--edit "ABCD" "AxCD")
      (save-buffer)
      (should (equal (legacy-tests--bytes (concat path "~")) before))
      (should (= (file-modes path) #o640))
      (delete-file (concat path "~")))))

(ert-deftest legacy-reverts ()
  (legacy-tests--with ("windows-1252-controls" path)
    (let ((text (buffer-string)))
      (legacy-tests--edit "ABCD" "AxCD")
      (revert-buffer t t)
      (should (equal (buffer-string) text))
      (should legacy-mode)
      (should-not (buffer-modified-p)))))

(ert-deftest legacy-shows-the-encoding-and-damage ()
  (legacy-tests--with ("shift_jis-damaged" path)
    (should (string-match-p "\\` Shift_JIS([0-9]+ damaged)\\'" (legacy--lighter)))))

(ert-deftest legacy-hides-carriage-returns-only-if-all-lines-have-one ()
  (should (legacy--only-crlf-p "a\r\nb\r\n"))
  (should (legacy--only-crlf-p "a\r\nb"))
  (dolist (it '("a\nb" "a" "a\r\nb\n" "a\r\nb\r" "a\rb\r\n" "\na\r\n"))
    (should-not (legacy--only-crlf-p it))))

(ert-deftest legacy-starts-a-server-again ()
  (legacy-tests--with ("utf-8-damaged" path)
    (legacy-tests--edit "ABCD" "AxCD")
    (dolist (it legacy--servers)
      (delete-process (jsonrpc--process (cdr it))))
    (save-buffer)
    (should-not (buffer-modified-p))))

(ert-deftest legacy-opens-a-new-file ()
  (let ((path (expand-file-name "new.shift_jis-repeated" legacy-tests--folder)))
    (save-window-excursion
      (legacy-find-file path)
      (insert "図\n")
      (save-buffer)
      (kill-buffer))
    (should (equal (legacy-tests--bytes path) (string-to-unibyte "\220\175\n")))
    (delete-file path)))

;; eglot comes with Emacs 29; for an older one it is a package.
(defconst legacy-tests--has-eglot (require 'eglot nil t))

(defun legacy-tests--shown (regexp)
  "Return a diagnostic of this buffer whose text matches REGEXP."
  (seq-find (lambda (it) (string-match-p regexp (flymake-diagnostic-text it))) (flymake-diagnostics)))

(defun legacy-tests--wait (condition)
  "Wait until CONDITION, a function, returns a value, and return it."
  (with-timeout (60 (ert-fail "nothing came of it"))
    (let (found)
      (while (not (setq found (funcall condition)))
        (accept-process-output nil 0.05))
      found)))

(ert-deftest legacy-with-eglot-shows-damage-and-saves-what-was-followed ()
  (skip-unless legacy-tests--has-eglot)
  (legacy-tests--with ("shift_jis-damaged" path)
    (let ((wanted (legacy-tests--bytes (expand-file-name "shift_jis-damaged.after" legacy-tests--folder)))
          (eglot-server-programs `((text-mode . ,legacy-lsp-command)))
          (eglot-confirm-server-initiated-edits nil)
          (eglot-send-changes-idle-time 0.1))
      (text-mode)
      (legacy-mode 1)
      (apply #'eglot (eglot--guess-contact))
      ;; (without a screen no command ends, after which Emacs would start this)
      (flymake-start)
      (unwind-protect
          (progn
            (legacy-tests--wait (lambda () (legacy-tests--shown "don't decode")))
            (goto-char (point-min))
            (insert "é")
            ;; (nor is it ever idle, after which eglot would send this)
            (eglot--signal-textDocument/didChange)
            (legacy-tests--wait (lambda () (legacy-tests--shown "U\\+00E9")))
            (should-error (save-buffer) :type 'legacy-refused)
            (delete-char -1)
            (legacy-tests--edit "ABCD" "AxCD")
            (legacy-tests--edit "ABCD" "AByD")
            (save-buffer)
            (should (equal (legacy-tests--bytes path) wanted)))
        (ignore-errors (eglot-shutdown (eglot-current-server)))))))

(provide 'legacy-tests)

;;; legacy-tests.el ends here
