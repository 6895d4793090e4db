package pipitscreen.slh;

import java.io.ByteArrayInputStream;
import java.nio.file.Files;
import java.nio.file.Path;
import java.security.InvalidKeyException;
import java.security.Signature;
import java.security.cert.CertificateFactory;
import java.security.cert.X509Certificate;

/** Keys, signatures and certificates of OpenSSL 3.5, and ours for it. */
final class OpenSslTests {
    private OpenSslTests() {}

    private static String nameOf(SlhSet set) {
        String name = set.algorithm();
        return name.substring(0, name.length() - 1) + name.substring(name.length() - 1).toLowerCase();
    }

    static void keysInBothDirections() throws Exception {
        Programs.needOpenSsl();
        byte[] none = new byte[0];
        for (SlhSet set : SlhSet.values()) {
            byte[] pem = Programs.openssl(none, "genpkey", "-algorithm", nameOf(set));
            SlhPrivateKey key = SlhPem.privateKey(pem);
            key.check();
            Tests.same(key.set(), set, "the set");
            Tests.same(SlhPem.encode(key), pem, "PEM");
            Tests.same(key.getEncoded(), Programs.openssl(pem, "pkey", "-outform", "DER"), "DER");
            byte[] publicPem = Programs.openssl(pem, "pkey", "-pubout");
            Tests.same(SlhPem.publicKey(publicPem), key.publicKey(), "the public key");
            Tests.same(SlhPem.encode(key.publicKey()), publicPem, "PEM of the public key");
            byte[] made = SlhPem.encode((SlhPrivateKey) KeysTests.pair(set).getPrivate());
            Tests.same(Programs.openssl(made, "pkey", "-check").length > made.length, true, "a key of ours");
        }
    }

    static void signaturesInBothDirections() throws Exception {
        Programs.needOpenSsl();
        Path folder = Files.createTempDirectory("slh");
        for (SlhSet set : new SlhSet[] {SlhSet.SHA2_128S, SlhSet.SHA2_128F, SlhSet.SHA2_192F, SlhSet.SHA2_256F}) {
            byte[] pem = Programs.openssl(new byte[0], "genpkey", "-algorithm", nameOf(set));
            Path keyFile = Files.write(folder.resolve("key.pem"), pem);
            Path letter = Files.writeString(folder.resolve("letter.txt"), "Dear reader,");
            SlhPrivateKey key = SlhPem.privateKey(pem);
            Signature signing = Signature.getInstance("SLH-DSA", Tests.PROVIDER);
            signing.initSign(key);
            signing.update(Files.readAllBytes(letter));
            Path made = Files.write(folder.resolve("letter.sig"), signing.sign());
            Programs.openssl(new byte[0], "pkeyutl", "-verify", "-rawin", "-inkey", keyFile.toString(), "-in",
                    letter.toString(), "-sigfile", made.toString());
            byte[] theirs = Programs.openssl(new byte[0], "pkeyutl", "-sign", "-rawin", "-inkey", keyFile.toString(),
                    "-in", letter.toString());
            Signature verifying = Signature.getInstance(set.algorithm(), Tests.PROVIDER);
            verifying.initVerify(key.publicKey());
            verifying.update(Files.readAllBytes(letter));
            Tests.expect(verifying.verify(theirs), set + ": OpenSSL's signature");
        }
    }

    /** The command that a refusal names converts the key. */
    static void theCommandConverts() throws Exception {
        Programs.needOpenSsl();
        byte[] pem = Programs.openssl(new byte[0], "genpkey", "-algorithm", "SLH-DSA-SHA2-128f");
        byte[] encrypted = Programs.openssl(pem, "pkey", "-aes256", "-passout", "pass:word");
        String said = Tests.throwsA(InvalidKeyException.class, () -> SlhPem.privateKey(encrypted));
        Tests.expect(said.endsWith("the key is encrypted; this asks for its password: openssl pkey -in FILE -out NEW"),
                said);
        Tests.same(Programs.openssl(encrypted, "pkey", "-passin", "pass:word"), pem, "the key");
    }

    /** The JDK reads certificates of OpenSSL with this provider, and verifies them. */
    static void certificates() throws Exception {
        Programs.needOpenSsl();
        Path folder = Files.createTempDirectory("slh");
        for (String set : new String[] {"128s", "128f", "192s", "192f", "256s", "256f"}) {
            byte[] pem = Programs.openssl(new byte[0], "req", "-x509", "-newkey", "SLH-DSA-SHA2-" + set, "-nodes",
                    "-keyout", folder.resolve("key.pem").toString(), "-subj", "/CN=" + set);
            var certificate = (X509Certificate) CertificateFactory.getInstance("X.509")
                    .generateCertificate(new ByteArrayInputStream(pem));
            Tests.expect(certificate.getPublicKey() instanceof SlhPublicKey, "a key of " + certificate.getPublicKey());
            certificate.verify(certificate.getPublicKey());
            certificate.verify(certificate.getPublicKey(), Tests.PROVIDER);
            Tests.throwsA(Exception.class, () -> certificate.verify(KeysTests.pair(SlhSet.SHA2_128F).getPublic()));
        }
    }
}
