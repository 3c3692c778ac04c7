;;; JH of Debian's cl-ironclad, checked and timed in the forms of bench/timing.c:
;;;   sbcl --script ironclad.lisp digests FILE..
;;;   sbcl --script ironclad.lisp hash MIB SIZE..
(require :asdf)
(let ((*standard-output* *error-output*)) ; the first load compiles
  (asdf:load-system :ironclad))

(defun digest (size message)
  (ironclad:byte-array-to-hex-string
   (ironclad:digest-sequence (ecase size (224 :jh/224) (256 :jh/256) (384 :jh/384) (512 :jh)) message)))

(defun now () ; in microseconds; the internal clock ticks too coarsely
  (multiple-value-bind (seconds rest) (sb-ext:get-time-of-day) (+ (* seconds 1000000) rest)))

(defun octets (n) (make-array n :element-type '(unsigned-byte 8)))

(defun digests (path)
  (with-open-file (in (sb-ext:parse-native-namestring path) :element-type '(unsigned-byte 8))
    (let ((message (octets (file-length in))))
      (read-sequence message in)
      (dolist (size '(224 256 384 512))
        (format t "~d~c~a~%" size #\Tab (digest size message))))))

(defun hash (mib sizes)
  (let* ((n (ash mib 20))
         (message (octets n))
         last
         start)
    (dotimes (i n) (setf (aref message i) (ldb (byte 8 13) (* i 2654435761))))
    (dolist (size sizes) (digest size (octets 1))) ; the first call builds the method tables
    (setf start (now))
    (dolist (size sizes) (setf last (digest size message)))
    (format t "~,4f~c~a~%" (/ (* (- (now) start) 1d3) n) #\Tab last)))

(let ((words (member-if (lambda (word) (member word '("digests" "hash") :test #'string=))
                         sb-ext:*posix-argv*)))
  (if (string= (first words) "hash")
      (hash (parse-integer (second words)) (mapcar #'parse-integer (cddr words)))
      (mapc #'digests (rest words))))
