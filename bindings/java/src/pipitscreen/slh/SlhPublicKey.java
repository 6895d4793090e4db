package pipitscreen.slh;

import java.io.InvalidObjectException;
import java.io.ObjectInputStream;
import java.io.Serial;
import java.security.InvalidKeyException;
import java.security.KeyRep;
import java.security.PublicKey;
import java.util.Arrays;
import java.util.Base64;

/** A public key, PK.seed and PK.root. It is printed as its set and its fingerprint. */
public final class SlhPublicKey extends SlhKey implements PublicKey {
    private static final long serialVersionUID = 1L;

    private final transient byte[] bytes;

    /** Takes bytes of the right length, which are not copied. */
    SlhPublicKey(SlhSet set, byte[] bytes) {
        super(set);
        this.bytes = bytes;
    }

    /**
     * Takes the 2n bytes of a key.
     *
     * @param set the set of the key
     * @param bytes PK.seed and PK.root, which are copied
     * @return the key
     * @throws InvalidKeyException if there are more or fewer bytes
     */
    public static SlhPublicKey of(SlhSet set, byte[] bytes) throws InvalidKeyException {
        Pkix.checkLength("public", set, set.publicKeyLength(), bytes.length);
        return new SlhPublicKey(set, bytes.clone());
    }

    /**
     * The 2n bytes of the key.
     *
     * @return a copy of PK.seed and PK.root
     */
    public byte[] toBytes() {
        return bytes.clone();
    }

    /**
     * The SHA-256 of the key's bytes.
     *
     * @return "SHA256:" and base64 without padding
     */
    public String fingerprint() {
        byte[] digest = SlhFunction.SHA_256.digest().digest(bytes);
        return "SHA256:" + Base64.getEncoder().withoutPadding().encodeToString(digest);
    }

    /** The key's own bytes, for a call that reads them. */
    byte[] held() {
        return bytes;
    }

    @Override
    Memory taken() {
        return Memory.copyOf(bytes);
    }

    @Override
    public String getFormat() {
        return "X.509";
    }

    /** Returns the SubjectPublicKeyInfo, as DER. */
    @Override
    public byte[] getEncoded() {
        return Pkix.written(this, false);
    }

    @Override
    public boolean equals(Object other) {
        return other instanceof SlhPublicKey key && set == key.set && Arrays.equals(bytes, key.bytes);
    }

    @Override
    public int hashCode() {
        return 31 * set.hashCode() + Arrays.hashCode(bytes);
    }

    @Override
    public String toString() {
        return getAlgorithm() + " public key " + fingerprint();
    }

    @Serial
    private Object writeReplace() {
        return new KeyRep(KeyRep.Type.PUBLIC, getAlgorithm(), getFormat(), getEncoded());
    }

    @Serial
    private void readObject(ObjectInputStream in) throws InvalidObjectException {
        throw new InvalidObjectException("a key is read as KeyRep alone");
    }
}
