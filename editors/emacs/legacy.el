;;; legacy.el --- Edit files in legacy encodings byte for byte -*- lexical-binding: t -*-

;; Author: Senqytap maintainers <maintainers@users.noreply.senqytap.example>
;; Version: 0.5.0
;; Package-Requires: ((emacs "28.1"))
;; Keywords: files, i18n, tools
;; URL: https://senqytap.example/gate

;;; Commentary:

;; Emacs decodes a whole file when it opens it, and encodes a whole buffer when it saves it.  So a save can change bytes of a
;; legacy file that nobody edited.  With this library the language server `legacy lsp' reads and writes the file instead: the
;; buffer has the text, and a save changes only the bytes of the edits.  A byte that doesn't decode is shown as U+FFFD, and is
;; kept as long as that character stays.
;;
;; M-x legacy-find-file opens a file.  Which encoding it has is decided by the rules of `legacy': patterns in
;; `legacy-lsp-command', or .gitattributes.  C-x C-s saves it.  A text that the encoding can't have is refused with its place, and
;; the file stays as it was.  `legacy-mode' is on in such a buffer, and the mode line has the encoding and the number of damaged
;; places.
;;
;; With eglot the same server shows damage in the buffer, and a character that the encoding lacks while it is typed:
;;
;;     (add-to-list 'eglot-server-programs '(text-mode . ("legacy" "lsp")))

;;; Code:

(require 'jsonrpc)
(require 'subr-x)
(require 'url-util)

(defvar eglot--versioned-identifier)
(declare-function eglot-current-server "eglot")
(declare-function eglot--signal-textDocument/didChange "eglot")

(defgroup legacy nil
  "Files in legacy encodings, edited byte for byte."
  :group 'files)

(defcustom legacy-lsp-command '("legacy" "lsp")
  "The language server and its arguments, for example -e *.txt=shift_jis."
  :type '(repeat string))

(defcustom legacy-timeout 20
  "The seconds that Emacs waits for the server."
  :type 'number)

(define-error 'legacy-refused "Not saved")

(defvar legacy--servers nil
  "The running servers, as an alist of the folders that they were started in.")

(defvar-local legacy--base nil
  "The server's name of the bytes that this buffer's text was read from.")

(defvar-local legacy--about nil
  "The server's last answer to `legacy/read' for this file, without the text.")

(defvar-local legacy--has-crlf nil
  "Whether every line of the file ends in CR LF, shown as a line feed alone.")

;;;; The server

(defun legacy--start (folder)
  "Start a server in FOLDER, whose rules it reads, and return the connection."
  (let* ((default-directory folder)
         (process (make-process :name "legacy" :command legacy-lsp-command :connection-type 'pipe :noquery t
                                :coding 'utf-8-emacs-unix :stderr (get-buffer-create " *legacy messages*")))
         (server (make-instance 'jsonrpc-process-connection :name "legacy" :process process
                                :on-shutdown #'legacy--forget)))
    (condition-case fault
        (jsonrpc-request server :initialize
                         `(:processId ,(emacs-pid) :rootUri ,(legacy--uri folder) :capabilities (:general (:positionEncodings ["utf-32"])))
                         :timeout legacy-timeout)
      (error (legacy--end server)
             (signal (car fault) (cdr fault))))
    (jsonrpc-notify server :initialized (make-hash-table))
    (push (cons folder server) legacy--servers)
    server))

(defun legacy--forget (server)
  "Forget SERVER, which ended."
  (setq legacy--servers (rassq-delete-all server legacy--servers)))

(defun legacy--end (server)
  "End SERVER."
  (legacy--forget server)
  (when (jsonrpc-running-p server)
    (jsonrpc-shutdown server)))

(defun legacy-stop-servers ()
  "End all servers.  The next command starts one again."
  (interactive)
  (mapc (lambda (it) (legacy--end (cdr it))) (copy-sequence legacy--servers)))

(defun legacy--server (file)
  "Return the server for the folder of FILE, which is started if there is none."
  (let* ((folder (file-name-as-directory (expand-file-name (or (legacy--root file) (file-name-directory file)))))
         (server (cdr (assoc folder legacy--servers))))
    (if (and server (jsonrpc-running-p server))
        server
      (legacy--start folder))))

(defun legacy--root (file)
  "Return the folder of the repository that FILE is in, if it is in one."
  (locate-dominating-file file ".git"))

(defun legacy--uri (path)
  "Return the URI of PATH, in the bytes that the file system has."
  (concat "file://" (url-hexify-string (encode-coding-string (expand-file-name path) (or file-name-coding-system 'utf-8-unix))
                                       url-path-allowed-chars)))

(defun legacy--ask (server method params)
  "Send SERVER a request METHOD with PARAMS and return the result.
Signal `legacy-refused' with the server's message if it refuses."
  (condition-case fault
      (jsonrpc-request server method params :timeout legacy-timeout)
    (jsonrpc-error
     (signal 'legacy-refused
             (list (or (alist-get 'jsonrpc-error-message (cddr fault)) (cadr fault)))))))

;;;; Reading

;;;###autoload
(defun legacy-find-file (file)
  "Open FILE as the text that its bytes are in the encoding of its rule."
  (interactive "FFind legacy file: ")
  (let* ((path (expand-file-name file))
         (open (find-buffer-visiting path)))
    (if (and open (buffer-local-value 'legacy-mode open))
        (switch-to-buffer open)
      (when open
        (user-error "%s is open already, as Emacs decodes it; kill that buffer first" (buffer-name open)))
      (switch-to-buffer (legacy--visit path)))))

(defun legacy--visit (path)
  "Return a new buffer that has the text of the file PATH."
  (let ((answer (legacy--ask (legacy--server path) :legacy/read `(:uri ,(legacy--uri path))))
        (buffer (create-file-buffer path)))
    (with-current-buffer buffer
      (setq default-directory (file-name-directory path))
      (legacy--take answer)
      ;; (the modes of a file look at its name; Emacs must not look for an encoding in its text)
      (setq buffer-file-name path
            buffer-file-truename (abbreviate-file-name (file-truename path))
            buffer-read-only (and (file-exists-p path) (not (file-writable-p path))))
      (set-visited-file-modtime)
      (set-buffer-modified-p nil)
      (normal-mode)
      (legacy-mode 1)
      (run-hooks 'find-file-hook))
    buffer))

(defun legacy--take (answer)
  "Put the text of ANSWER, the result of `legacy/read', into this buffer."
  (let* ((inhibit-read-only t)
         (text (plist-get answer :text))
         (crlf (legacy--only-crlf-p text)))
    (if (zerop (buffer-size))
        (insert (if crlf (string-replace "\r\n" "\n" text) text))
      (legacy--replace (if crlf (string-replace "\r\n" "\n" text) text)))
    (goto-char (point-min))
    (setq legacy--has-crlf crlf
          legacy--base (plist-get answer :base)
          legacy--about (legacy--without answer :text)
          buffer-file-coding-system 'utf-8-unix)))

(defun legacy--only-crlf-p (text)
  "Return whether TEXT has line ends and all of them are CR LF."
  (and (string-search "\r\n" text)
       (not (string-match-p "\r[^\n]\\|\r\\'\\|[^\r]\n\\|\\`\n" text))))

(defun legacy--replace (text)
  "Replace the text of this buffer by TEXT, and keep markers where nothing changed."
  (let ((source (generate-new-buffer " *legacy text*")))
    (unwind-protect
        (progn
          (with-current-buffer source (insert text))
          (replace-buffer-contents source 1))
      (kill-buffer source))))

(defun legacy--without (answer key)
  "Return a copy of the property list ANSWER without KEY."
  (let (kept)
    (while answer
      (let ((name (pop answer)) (value (pop answer)))
        (unless (eq name key)
          (setq kept (plist-put kept name value)))))
    kept))

(defun legacy--revert (_ignore-auto noconfirm)
  "Read the file again, after a question unless NOCONFIRM."
  (when (or noconfirm (yes-or-no-p (format "Revert buffer from file %s? " buffer-file-name)))
    (legacy--take (legacy--ask (legacy--server buffer-file-name) :legacy/read `(:uri ,(legacy--uri buffer-file-name))))
    (set-visited-file-modtime)
    (set-buffer-modified-p nil)
    t))

;;;; Writing

(defun legacy--write ()
  "Write this buffer by the server; for `write-contents-functions'."
  (save-restriction
    (widen)
    (legacy--back-up)
    (let ((answer (or (legacy--write-followed) (legacy--write-text))))
      (setq legacy--base (plist-get answer :base))
      (set-visited-file-modtime)
      (set-buffer-modified-p nil)
      ;; `basic-save-buffer' takes it for the encoding of this file, and would hide line ends by it.
      (setq last-coding-system-used buffer-file-coding-system)
      (legacy--look-again)
      (message "Wrote %s (%d bytes)" buffer-file-name (plist-get answer :bytes))
      t)))

(defun legacy--write-text ()
  "Write the text of this buffer into the bytes that it was read from."
  (let ((text (buffer-substring-no-properties (point-min) (point-max))))
    (legacy--ask (legacy--server buffer-file-name) :legacy/write
                 `(:uri ,(legacy--uri buffer-file-name)
                   :text ,(if legacy--has-crlf (string-replace "\n" "\r\n" text) text)
                   :base ,legacy--base))))

(defun legacy--write-followed ()
  "Write by the server of eglot, which followed each edit of this buffer.
Return nil if there is none."
  (when-let* (((bound-and-true-p eglot--managed-mode))
              (server (eglot-current-server))
              ((equal (legacy--program server) (car legacy-lsp-command))))
    (eglot--signal-textDocument/didChange)
    (legacy--ask server :legacy/write `(:uri ,(legacy--uri buffer-file-name) :version ,eglot--versioned-identifier))))

(defun legacy--program (server)
  "Return the program that SERVER, a connection of eglot, runs."
  (car (process-command (jsonrpc--process server))))

(defun legacy--back-up ()
  "Keep a backup of the file, as `save-buffer' does before the first save.
It is a copy: the server replaces the file, whose rights and owner stay."
  (when (and make-backup-files (not buffer-backed-up) (file-exists-p buffer-file-name))
    (let ((backup-by-copying t))
      (backup-buffer))
    (setq buffer-backed-up t)))

(defun legacy--look-again ()
  "Ask the server what is known of the file now."
  (ignore-errors
    (let ((answer (legacy--ask (legacy--server buffer-file-name) :legacy/read `(:uri ,(legacy--uri buffer-file-name)))))
      (setq legacy--about (legacy--without answer :text))
      (force-mode-line-update))))

;;;; The mode

(defun legacy--lighter ()
  "Return what the mode line shows of this buffer's file."
  (let ((damaged (or (plist-get legacy--about :damaged) 0)))
    (format " %s%s" (or (plist-get legacy--about :encoding) "legacy")
            (if (zerop damaged) "" (format "(%d damaged)" damaged)))))

(define-minor-mode legacy-mode
  "Saves this buffer by the language server `legacy lsp', byte for byte.
`legacy-find-file' turns it on."
  :lighter (:eval (legacy--lighter))
  (if (not legacy-mode)
      (remove-hook 'write-contents-functions #'legacy--write t)
    (unless legacy--base
      (setq legacy-mode nil)
      (user-error "Use legacy-find-file to open a legacy file"))
    (add-hook 'write-contents-functions #'legacy--write nil t)
    (setq-local revert-buffer-function #'legacy--revert)
    (setq-local require-final-newline nil)
    (setq-local mode-require-final-newline nil)))

(put 'legacy-mode 'permanent-local t)
(put 'legacy--write 'permanent-local-hook t)
(dolist (it '(legacy--base legacy--about legacy--has-crlf))
  (put it 'permanent-local t))

(provide 'legacy)

;;; legacy.el ends here
