package pipitscreen.slh;

import java.io.InvalidObjectException;
import java.io.NotSerializableException;
import java.io.ObjectInputStream;
import java.io.ObjectOutputStream;
import java.io.Serial;
import java.lang.foreign.MemorySegment;
import java.security.InvalidKeyException;
import java.security.PrivateKey;
import java.security.SecureRandom;

/**
 * A private key, SK.seed, SK.prf, PK.seed and PK.root. Its bytes are outside the Java heap. It is printed as its set,
 * and refuses to be serialised; getEncoded and SlhPem alone give its bytes out. After destroy, or close, each method
 * that needs the bytes throws IllegalStateException.
 */
public final class SlhPrivateKey extends SlhKey implements PrivateKey, AutoCloseable {
    private static final long serialVersionUID = 1L;

    private final transient Memory memory;
    private final transient SlhPublicKey publicKey;
    private transient boolean isDestroyed;

    /** Takes memory of the right length, which is not copied. */
    SlhPrivateKey(SlhSet set, Memory memory) {
        super(set);
        this.memory = memory;
        try (Memory made = new Memory(set.publicKeyLength())) {
            Library.done("slh_public", set.number(), memory, made);
            publicKey = new SlhPublicKey(set, made.toBytes());
        }
    }

    /**
     * Takes the 4n bytes of a key. Call check once if it comes from elsewhere.
     *
     * @param set the set of the key
     * @param bytes SK.seed, SK.prf, PK.seed and PK.root, which are copied: the caller overwrites them
     * @return the key
     * @throws InvalidKeyException if there are more or fewer bytes
     */
    public static SlhPrivateKey of(SlhSet set, byte[] bytes) throws InvalidKeyException {
        Pkix.checkLength("private", set, set.privateKeyLength(), bytes.length);
        return new SlhPrivateKey(set, Memory.copyOf(bytes));
    }

    /**
     * Makes the key of three seeds (Algorithm 18), which are as secret as the key, and checks it.
     *
     * @param set the set of the key
     * @param skSeed SK.seed, n bytes, which are copied: the caller overwrites them
     * @param skPrf SK.prf, likewise
     * @param pkSeed PK.seed
     * @return the key
     * @throws InvalidKeyException if a seed has another length, or if check finds another root: 38 Fault
     */
    public static SlhPrivateKey keygen(SlhSet set, byte[] skSeed, byte[] skPrf, byte[] pkSeed)
            throws InvalidKeyException {
        try (Memory one = Memory.copyOf(skSeed); Memory two = Memory.copyOf(skPrf);
                Memory three = Memory.copyOf(pkSeed)) {
            return ofSeeds(set, one, two, three);
        } catch (Refusal refusal) {
            throw new InvalidKeyException(refusal.getMessage(), refusal);
        }
    }

    private static SlhPrivateKey ofSeeds(SlhSet set, Memory skSeed, Memory skPrf, Memory pkSeed) {
        Memory made = new Memory(set.privateKeyLength());
        try {
            Library.done("slh_keygen", set.number(), skSeed, skPrf, pkSeed, made);
            if (!Library.isDone("slh_check", set.number(), made)) {
                throw new Refusal(Library.FAULT, "the root of the key that was made is not the one of its seeds");
            }
            return new SlhPrivateKey(set, made);
        } catch (RuntimeException fault) {
            made.close();
            throw fault;
        }
    }

    static SlhPrivateKey generate(SlhSet set, SecureRandom random) {
        try (Memory skSeed = Memory.random(set.n(), random); Memory skPrf = Memory.random(set.n(), random);
                Memory pkSeed = Memory.random(set.n(), random)) {
            return ofSeeds(set, skSeed, skPrf, pkSeed);
        }
    }

    /**
     * The public key: the last 2n bytes. It is there after destroy, too.
     *
     * @return the public key
     */
    public SlhPublicKey publicKey() {
        return publicKey;
    }

    /**
     * Computes PK.root again, which takes as long as making a key.
     *
     * @throws InvalidKeyException unless PK.root is the root that the seeds give
     */
    public void check() throws InvalidKeyException {
        try (Memory key = taken()) {
            if (!Library.isDone("slh_check", set.number(), key)) {
                throw new InvalidKeyException("the root of the key is not the one that its seeds give");
            }
        }
    }

    /** A copy for one call. A destroy that comes meanwhile waits for the copy, and not for the call. */
    @Override
    synchronized Memory taken() {
        if (isDestroyed) {
            throw new IllegalStateException("the private key was destroyed");
        }
        return Memory.copyOf(memory.segment());
    }

    /** Where the bytes are, for tests. */
    MemorySegment segment() {
        return memory.segment();
    }

    /** Overwrites the bytes of this key. A call that runs in another thread ends under its own copy. */
    @Override
    public synchronized void destroy() {
        isDestroyed = true;
        memory.close();
    }

    @Override
    public synchronized boolean isDestroyed() {
        return isDestroyed;
    }

    /** Does what destroy does, at the end of a try statement. */
    @Override
    public void close() {
        destroy();
    }

    @Override
    public String getFormat() {
        return "PKCS#8";
    }

    /** Returns the PrivateKeyInfo of PKCS#8, as DER that is not encrypted. The caller overwrites these bytes. */
    @Override
    public byte[] getEncoded() {
        return Pkix.written(this, false);
    }

    /** Whether both are the same key, in a time that does not depend on their bytes. A destroyed one is only itself. */
    @Override
    public boolean equals(Object other) {
        if (this == other) {
            return true;
        }
        if (!(other instanceof SlhPrivateKey key) || set != key.set || isDestroyed() || key.isDestroyed()) {
            return false;
        }
        try (Memory mine = taken(); Memory theirs = key.taken()) {
            return mine.isEqual(theirs);
        }
    }

    @Override
    public int hashCode() {
        return publicKey.hashCode();
    }

    @Override
    public String toString() {
        return getAlgorithm() + " private key";
    }

    @Serial
    private void writeObject(ObjectOutputStream out) throws NotSerializableException {
        throw new NotSerializableException("a private key is not serialised: use getEncoded");
    }

    @Serial
    private void readObject(ObjectInputStream in) throws InvalidObjectException {
        throw new InvalidObjectException("a private key is not serialised");
    }
}
