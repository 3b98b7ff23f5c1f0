;;; Emacs's own client on the language server of examples/language_server: it starts, hovers, cancels, meets an unknown method, and ends.  -*- lexical-binding: t -*-
(require 'jsonrpc)

(defvar told nil "What the server told by window/logMessage.")
(defvar place '(:textDocument (:uri "file:///nowhere") :position (:line 0 :character 0)))

(defun fail (text &rest words)
  (message "FAILED: %s" (apply #'format text words))
  (kill-emacs 1))

(defun wait-for (what is-there)
  (let ((end (+ (float-time) 10)))
    (while (not (funcall is-there))
      (when (> (float-time) end) (fail "waited in vain for %s" what))
      (accept-process-output nil 0.01))))

(defvar server
  (jsonrpc-process-connection
   :name "greeter"
   :process (lambda ()
              (make-process :name "greeter" :connection-type 'pipe :coding 'utf-8-emacs-unix :noquery t
                            :command (list (getenv "RPC_TOOL") "serve" "--table" (getenv "METHODS"))
                            :stderr (get-buffer-create "*greeter's errors*")))
   :request-dispatcher (lambda (_server method params)
                         (unless (eq method 'workspace/configuration) (fail "called: %s" method))
                         (vconcat (mapcar (lambda (item) (concat "the setting " (plist-get item :section)))
                                          (plist-get params :items))))
   :notification-dispatcher (lambda (_server method params)
                              (when (eq method 'window/logMessage) (push (plist-get params :message) told)))))

(let ((capabilities (plist-get (jsonrpc-request server :initialize '(:processId nil :rootUri nil :capabilities nil)) :capabilities)))
  (unless (eq (plist-get capabilities :hoverProvider) t) (fail "capabilities: %S" capabilities)))
(jsonrpc-notify server :initialized '(:empty nil))
(wait-for "the log message" (lambda () (equal told '("greeter is ready"))))

(let ((hover (jsonrpc-request server :textDocument/hover place)))
  (unless (equal (plist-get hover :contents) "the setting greeter.text") (fail "hover: %S" hover)))

(let* ((cancelled nil)
       ;; (the public form doesn't tell the request's id)
       (sent (jsonrpc--async-request-1 server :textDocument/hover place
                                       :success-fn (lambda (it) (setq cancelled (list 'answered it)))
                                       :error-fn (lambda (it) (setq cancelled (list 'error (plist-get it :code)))))))
  (jsonrpc-notify server :$/cancelRequest (list :id (car sent)))
  (wait-for "the cancelled hover" (lambda () cancelled))
  (unless (equal cancelled '(error -32800)) (fail "cancelled: %S" cancelled)))

(condition-case error
    (progn (jsonrpc-request server :textDocument/nothing place)
           (fail "an unknown method was answered"))
  (jsonrpc-error (unless (equal (alist-get 'jsonrpc-error-code (cddr error)) -32601) (fail "unknown: %S" error))))

(unless (eq (jsonrpc-request server :shutdown nil) nil) (fail "shutdown"))
(jsonrpc-notify server :exit nil)
(process-send-eof (jsonrpc--process server))
(wait-for "the end of the server" (lambda () (not (jsonrpc-running-p server))))
(unless (zerop (process-exit-status (jsonrpc--process server))) (fail "status %d" (process-exit-status (jsonrpc--process server))))
(princ (format "GNU Emacs %s: initialize, hover, cancel, unknown method and shutdown\n" emacs-version))
