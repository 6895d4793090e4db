package pipitscreen.slh;

import java.security.InvalidKeyException;

/**
 * Keys in PEM: "PUBLIC KEY" and "PRIVATE KEY", base64 in lines of 64 characters. Text of any other form is refused as
 * an InvalidKeyException, whose message has the command of OpenSSL that converts it.
 */
public final class SlhPem {
    private SlhPem() {}

    /**
     * The SubjectPublicKeyInfo of a key.
     *
     * @param key the key
     * @return the text, in ASCII
     */
    public static byte[] encode(SlhPublicKey key) {
        return Pkix.written(key, true);
    }

    /**
     * The PrivateKeyInfo of a key, which is not encrypted.
     *
     * @param key the key
     * @return the text, in ASCII, which the caller overwrites
     */
    public static byte[] encode(SlhPrivateKey key) {
        return Pkix.written(key, true);
    }

    /**
     * Reads a SubjectPublicKeyInfo.
     *
     * @param text the text
     * @return the key
     * @throws InvalidKeyException if the text is of another form
     */
    public static SlhPublicKey publicKey(byte[] text) throws InvalidKeyException {
        return Pkix.publicKey(text, true);
    }

    /**
     * Reads a PrivateKeyInfo that is not encrypted. Call check once on the key if it comes from elsewhere.
     *
     * @param text the text, which is copied: the caller overwrites it
     * @return the key
     * @throws InvalidKeyException if the text is of another form
     */
    public static SlhPrivateKey privateKey(byte[] text) throws InvalidKeyException {
        return Pkix.privateKey(text, true);
    }
}
