package pipitscreen.slh;

import java.lang.foreign.MemorySegment;
import java.lang.foreign.ValueLayout;
import java.security.spec.AlgorithmParameterSpec;
import java.security.spec.NamedParameterSpec;
import java.util.Optional;
import java.util.stream.Stream;

/** The parameter sets with SHA-2 (FIPS 205, section 11, Table 2). */
public enum SlhSet {
    /** Security category 1, short signatures. */
    SHA2_128S,
    /** Security category 1, signs fast. */
    SHA2_128F,
    /** Security category 3, short signatures. */
    SHA2_192S,
    /** Security category 3, signs fast. */
    SHA2_192F,
    /** Security category 5, short signatures. */
    SHA2_256S,
    /** Security category 5, signs fast. */
    SHA2_256F;

    private static final String FAMILY = "SLH-DSA";
    /** id-slh-dsa-sha2-128s. The last numbers of the sets follow each other. */
    private static final String FIRST_ARC = "2.16.840.1.101.3.4.3.";
    private static final int FIRST = 20;
    /** id-hash-slh-dsa-sha2-128s-with-sha256. */
    private static final int FIRST_PRE_HASH = 35;

    /**
     * The name of the algorithm, as "SLH-DSA-SHA2-128F".
     *
     * @return the name
     */
    public String algorithm() {
        return FAMILY + "-" + name().replace('_', '-');
    }

    /**
     * The parameters for `KeyPairGenerator.initialize`, whose name is that of the algorithm.
     *
     * @return the parameters
     */
    public NamedParameterSpec spec() {
        return new NamedParameterSpec(algorithm());
    }

    /**
     * Tests the set on this machine before it is used, as when a service starts. A known key is made, and a known
     * message is signed. PK.root and the SHA-256 of the signature have to be those that OpenSSL gave. The signature has
     * to be valid, and invalid for another message. The test takes as long as to make a key, to sign once and to verify
     * two times.
     *
     * <p>It shows nothing about other sets, keys and messages, the pre-hash forms, random bytes and later faults. It
     * does not replace a hash of the library's file.
     *
     * @throws Refusal of the name SelfTestFailed, if an answer is not the known one
     */
    public void selfTest() {
        try (Memory scratch = new Memory(signatureLength())) {
            Library.done("slh_self_test", number(), scratch);
        }
    }

    /** The set of a name in any case, as "SLH-DSA-SHA2-128f". */
    static Optional<SlhSet> named(String name) {
        return Stream.of(values()).filter(it -> it.algorithm().equalsIgnoreCase(name)).findFirst();
    }

    /** The set that parameters name. */
    static Optional<SlhSet> of(AlgorithmParameterSpec spec) {
        return spec instanceof NamedParameterSpec named ? named(named.getName()) : Optional.empty();
    }

    /** The number that libslh has for the set. */
    int number() {
        return ordinal() + 1;
    }

    /** The length of a seed and of a randomizer. */
    int n() {
        return 16 + 8 * (ordinal() / 2);
    }

    int publicKeyLength() {
        return 2 * n();
    }

    int privateKeyLength() {
        return 4 * n();
    }

    int signatureLength() {
        try (Memory room = new Memory(4 * Long.BYTES)) {
            MemorySegment at = room.segment();
            Library.done("slh_lengths", number(), at.asSlice(0), at.asSlice(8), at.asSlice(16), at.asSlice(24));
            return Math.toIntExact(at.get(ValueLayout.JAVA_LONG, 16));
        }
    }

    /** The last byte of the object identifier of keys and signatures of the pure form. */
    byte arc() {
        return (byte) (FIRST + ordinal());
    }

    String oid() {
        return FIRST_ARC + arc();
    }

    /** The identifier of signatures of the pre-hash form, by `function`. */
    String preHashOid() {
        return FIRST_ARC + (FIRST_PRE_HASH + ordinal());
    }

    /** The pre-hash function that FIPS 205 names for the set. */
    SlhFunction function() {
        return n() == 16 ? SlhFunction.SHA_256 : SlhFunction.SHA_512;
    }
}
