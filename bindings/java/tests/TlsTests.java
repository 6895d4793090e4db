package pipitscreen.slh;

import java.io.ByteArrayInputStream;
import java.io.IOException;
import java.nio.file.Files;
import java.nio.file.Path;
import java.security.KeyFactory;
import java.security.KeyStore;
import java.security.PrivateKey;
import java.security.cert.Certificate;
import java.security.cert.CertificateFactory;
import java.security.spec.PKCS8EncodedKeySpec;
import javax.net.ssl.KeyManagerFactory;
import javax.net.ssl.SSLContext;
import javax.net.ssl.SSLException;
import javax.net.ssl.SSLServerSocket;
import javax.net.ssl.SSLSocket;
import javax.net.ssl.TrustManagerFactory;

/** What Java's own TLS does with these keys: its list of signature algorithms is fixed, so there is no handshake. */
final class TlsTests {
    private static final char[] WORD = "secret".toCharArray();

    private TlsTests() {}

    /** A context whose server has this key, and whose client trusts its certificate. */
    private static SSLContext context(PrivateKey key, Certificate certificate) throws Exception {
        KeyStore store = KeyStore.getInstance("PKCS12");
        store.load(null, WORD);
        store.setKeyEntry("server", key, WORD, new Certificate[] {certificate});
        store.setCertificateEntry("trusted", certificate);
        KeyManagerFactory keys = KeyManagerFactory.getInstance("PKIX");
        keys.init(store, WORD);
        TrustManagerFactory trusted = TrustManagerFactory.getInstance("PKIX");
        trusted.init(store);
        SSLContext made = SSLContext.getInstance("TLSv1.3");
        made.init(keys.getKeyManagers(), trusted.getTrustManagers(), null);
        return made;
    }

    /** A handshake, of which the client's side is returned; the server's ends as it may. */
    private static void handshake(SSLContext context) throws IOException {
        try (SSLServerSocket listening = (SSLServerSocket) context.getServerSocketFactory().createServerSocket(0);
                SSLSocket client = (SSLSocket) context.getSocketFactory().createSocket("localhost",
                        listening.getLocalPort())) {
            Thread.ofVirtual().start(() -> {
                try (SSLSocket server = (SSLSocket) listening.accept()) {
                    server.startHandshake();
                    server.getInputStream().read();
                } catch (IOException fault) {
                    // The client tells of it.
                }
            });
            client.startHandshake();
        }
    }

    private static Certificate certificate(byte[] pem) throws Exception {
        return CertificateFactory.getInstance("X.509").generateCertificate(new ByteArrayInputStream(pem));
    }

    static void thereIsNoHandshake() throws Exception {
        Programs.needOpenSsl();
        byte[] none = new byte[0];
        Path folder = Files.createTempDirectory("slh");
        String file = folder.resolve("key.pem").toString();
        byte[] pem = Programs.openssl(none, "req", "-x509", "-newkey", "SLH-DSA-SHA2-128f", "-nodes", "-keyout", file,
                "-subj", "/CN=localhost");
        SlhPrivateKey key = SlhPem.privateKey(Files.readAllBytes(folder.resolve("key.pem")));
        SSLContext ours = context(key, certificate(pem));
        System.out.println("Java's TLS says: " + Tests.throwsA(SSLException.class, () -> handshake(ours)));
        pem = Programs.openssl(none, "req", "-x509", "-newkey", "EC", "-pkeyopt", "ec_paramgen_curve:P-256", "-nodes",
                "-keyout", file, "-subj", "/CN=localhost");
        byte[] der = Programs.openssl(none, "pkcs8", "-topk8", "-nocrypt", "-in", file, "-outform", "DER");
        handshake(context(KeyFactory.getInstance("EC")
                .generatePrivate(new PKCS8EncodedKeySpec(der)), certificate(pem)));
    }
}
