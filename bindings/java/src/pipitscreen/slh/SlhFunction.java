package pipitscreen.slh;

import java.security.MessageDigest;
import java.security.NoSuchAlgorithmException;
import java.security.ProviderException;

/** The pre-hash functions (FIPS 205, section 10.2.2). One that is weaker than the set makes a weaker signature. */
public enum SlhFunction {
    /** SHA-224. */
    SHA_224("SHA-224"),
    /** SHA-256. */
    SHA_256("SHA-256"),
    /** SHA-384. */
    SHA_384("SHA-384"),
    /** SHA-512. */
    SHA_512("SHA-512"),
    /** SHA-512/224. */
    SHA_512_224("SHA-512/224"),
    /** SHA-512/256. */
    SHA_512_256("SHA-512/256");

    private final String algorithm;

    SlhFunction(String algorithm) {
        this.algorithm = algorithm;
    }

    /**
     * The name for MessageDigest, as "SHA-256".
     *
     * @return the name
     */
    public String algorithm() {
        return algorithm;
    }

    /** The number that libslh has for the function. */
    int number() {
        return ordinal() + 1;
    }

    MessageDigest digest() {
        try {
            return MessageDigest.getInstance(algorithm);
        } catch (NoSuchAlgorithmException fault) {
            throw new ProviderException(fault);
        }
    }
}
