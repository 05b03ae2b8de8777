;;; dap-gbkeep.el --- Debugs Game Boy ROMs by gbkeep-dap  -*- lexical-binding: t -*-
;; (require 'dap-gbkeep), and then M-x dap-debug
(require 'dap-mode)
(dap-register-debug-provider
 "gbkeep" (lambda (conf) (plist-put conf :dap-server-path '("gbkeep-dap"))))
(dap-register-debug-template
 "gbkeep" (list :type "gbkeep" :request "launch" :name "gbkeep" :program "${workspaceFolder}/game.gb" :stopOnEntry t))
(provide 'dap-gbkeep)
;;; dap-gbkeep.el ends here
