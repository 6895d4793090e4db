#!/usr/bin/env bash
# Makes a CA of two levels and a time stamp authority, and what they issue, by the provider `slh` (docs/OPENSSL.md).
#
# usage: ca.sh        in an empty folder that has ca.cnf, with your addresses, and letter.txt
#
# Copy the lines that you need. With -C the shell overwrites no file, so that a second run destroys no key. By twice:1
# each part of a signature is computed two times. Only the provider `slh` knows it, so no other one signs. `openssl cms`
# has no such option: it follows slh.cnf.
set -euC
export OPENSSL_CONF=${OPENSSL_CONF-/etc/ssl/slh.cnf}
umask 077

# the root, the issuing CA and a server's certificate
touch root.txt issuing.txt
echo 01 | tee root.number tsa.number > issuing.number
openssl genpkey -algorithm SLH-DSA-SHA2-128s > root.key
openssl req -config ca.cnf -x509 -new -sigopt twice:1 -key root.key -subj "/CN=Our root" -extensions root_ca \
    -days 7300 -out root.pem
openssl genpkey -algorithm SLH-DSA-SHA2-128s > issuing.key
openssl req -config ca.cnf -new -sigopt twice:1 -key issuing.key -subj "/CN=Our issuing CA" -out issuing.csr
openssl ca -config ca.cnf -name root -batch -notext -sigopt twice:1 -in issuing.csr -out issuing.pem
openssl genpkey -algorithm SLH-DSA-SHA2-128f > www.key
openssl req -config ca.cnf -new -sigopt twice:1 -key www.key -subj /CN=www -addext subjectAltName=DNS:localhost \
    -out www.csr
openssl ca -config ca.cnf -batch -notext -sigopt twice:1 -in www.csr -out www.pem

# a signer, and a CMS signature
openssl genpkey -algorithm SLH-DSA-SHA2-128f > signer.key
openssl req -config ca.cnf -new -sigopt twice:1 -key signer.key -subj /CN=Signer -out signer.csr
openssl ca -config ca.cnf -batch -notext -sigopt twice:1 -extensions client -in signer.csr -out signer.pem
openssl cms -sign -binary -nodetach -md sha256 -in letter.txt -signer signer.pem -inkey signer.key \
    -certfile issuing.pem -outform DER -out letter.cms

# renewal: the request is signed again, and both certificates are valid until the first ends
openssl ca -config ca.cnf -batch -notext -sigopt twice:1 -extensions client -in signer.csr -out renewed.pem

# revocation, both CRLs, and an OCSP answer under a responder's certificate
openssl ca -config ca.cnf -revoke www.pem -crl_reason keyCompromise
openssl ca -config ca.cnf -gencrl -sigopt twice:1 -out issuing.crl
openssl ca -config ca.cnf -name root -gencrl -sigopt twice:1 -out root.crl
openssl genpkey -algorithm SLH-DSA-SHA2-128f > ocsp.key
openssl req -config ca.cnf -new -sigopt twice:1 -key ocsp.key -subj /CN=OCSP -out ocsp.csr
openssl ca -config ca.cnf -batch -notext -sigopt twice:1 -extensions ocsp -in ocsp.csr -out ocsp.pem
openssl ocsp -issuer issuing.pem -cert www.pem -no_nonce -reqout www.req
openssl ocsp -index issuing.txt -CA issuing.pem -rsigner ocsp.pem -rkey ocsp.key -rsigopt twice:1 -ndays 1 \
    -reqin www.req -respout www.resp

# a time stamp; the TSA's certificate is under the same root
openssl genpkey -algorithm EC -pkeyopt ec_paramgen_curve:P-256 > tsa.key
openssl req -config ca.cnf -new -key tsa.key -subj /CN=TSA -out tsa.csr
openssl ca -config ca.cnf -batch -notext -sigopt twice:1 -extensions time_stamping -in tsa.csr -out tsa.pem
openssl ts -query -data letter.txt -sha256 -cert -out letter.tsq
openssl ts -reply -config ca.cnf -queryfile letter.tsq -out letter.tsr

# an encrypted key, as its passphrase is in a file; without -pass and -passin OpenSSL asks for it
openssl rand -base64 24 > passphrase
openssl genpkey -algorithm SLH-DSA-SHA2-128f -aes-256-cbc -pass file:passphrase > locked.key
openssl pkeyutl -sign -rawin -inkey locked.key -passin file:passphrase -pkeyopt twice:1 -in letter.txt \
    -out letter.sig
openssl pkey -in locked.key -passin file:passphrase -pubout > locked.pub
