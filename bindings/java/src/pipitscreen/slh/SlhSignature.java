package pipitscreen.slh;

import java.nio.ByteBuffer;
import java.security.AlgorithmParameters;
import java.security.InvalidAlgorithmParameterException;
import java.security.InvalidKeyException;
import java.security.InvalidParameterException;
import java.security.MessageDigest;
import java.security.PrivateKey;
import java.security.PublicKey;
import java.security.SecureRandom;
import java.security.SignatureException;
import java.security.SignatureSpi;
import java.security.spec.AlgorithmParameterSpec;
import java.util.ArrayList;
import java.util.List;

/** Signs and verifies: the pure form holds the message until its end, the pre-hash form hashes its pieces. */
final class SlhSignature extends SignatureSpi {
    private final SlhSet fixed;
    private final boolean isPreHash;
    private final Message message = new Message();
    private SlhSignatureSpec spec = SlhSignatureSpec.DEFAULT;
    private SlhPrivateKey privateKey;
    private SlhPublicKey publicKey;
    /** Whether the private key was made here, of a key of another provider. */
    private boolean isOwn;
    private SecureRandom random;
    private MessageDigest digest;

    /** For keys of one set, or of each if that is null. */
    SlhSignature(SlhSet fixed, boolean isPreHash) {
        this.fixed = fixed;
        this.isPreHash = isPreHash;
    }

    @Override
    protected void engineInitSign(PrivateKey key) throws InvalidKeyException {
        engineInitSign(key, null);
    }

    @Override
    protected void engineInitSign(PrivateKey key, SecureRandom source) throws InvalidKeyException {
        forget();
        privateKey = (SlhPrivateKey) SlhKeyFactory.translated(key, fixed);
        isOwn = privateKey != key;
        random = source;
    }

    @Override
    protected void engineInitVerify(PublicKey key) throws InvalidKeyException {
        forget();
        publicKey = (SlhPublicKey) SlhKeyFactory.translated(key, fixed);
    }

    /** Forgets the keys and the message. */
    private void forget() {
        if (isOwn) {
            privateKey.destroy();
        }
        isOwn = false;
        privateKey = null;
        publicKey = null;
        reset();
    }

    private void reset() {
        message.close();
        digest = null;
    }

    private SlhSet set() {
        return publicKey == null ? privateKey.set() : publicKey.set();
    }

    private SlhFunction function() {
        boolean isNamed = spec.function() != null;
        return isNamed ? spec.function() : set().function();
    }

    private MessageDigest digest() {
        if (digest == null) {
            digest = function().digest();
        }
        return digest;
    }

    @Override
    protected void engineUpdate(byte octet) {
        engineUpdate(new byte[] {octet}, 0, 1);
    }

    @Override
    protected void engineUpdate(byte[] bytes, int at, int length) {
        if (isPreHash) {
            digest().update(bytes, at, length);
        } else {
            message.add(bytes, at, length);
        }
    }

    @Override
    protected void engineUpdate(ByteBuffer bytes) {
        if (isPreHash) {
            digest().update(bytes);
        } else {
            message.add(bytes);
        }
    }

    @Override
    protected byte[] engineSign() throws SignatureException {
        try (Memory text = text(); Memory key = privateKey.taken();
                Memory signature = new Memory(set().signatureLength())) {
            sign(key, text, signature);
            return signature.toBytes();
        } catch (Refusal refusal) {
            throw new SignatureException(refusal.getMessage(), refusal);
        } catch (IllegalStateException fault) {
            throw new SignatureException(fault.getMessage(), fault);
        } finally {
            reset();
        }
    }

    @Override
    protected boolean engineVerify(byte[] signature) throws SignatureException {
        try (Memory text = text(); Memory given = Memory.copyOf(signature)) {
            return isValid(publicKey, text, given);
        } catch (Refusal refusal) {
            throw new SignatureException(refusal.getMessage(), refusal);
        } finally {
            reset();
        }
    }

    /** What is signed: the message, or its digest. */
    private Memory text() {
        return isPreHash ? Memory.copyOf(digest().digest()) : message.whole();
    }

    private void sign(Memory key, Memory text, Memory signature) {
        try (Memory context = Memory.copyOf(spec.context()); Memory randomizer = randomizer();
                Memory scratch = new Memory(spec.isOnce() ? 0 : 2 * signature.length())) {
            List<Object> words = words();
            words.addAll(List.of(key, text, context, randomizer));
            words.addAll(spec.isOnce() ? List.of(signature) : List.of(scratch, signature));
            String call = isPreHash ? "slh_hash_sign_digest" : "slh_sign";
            Library.done(spec.isOnce() ? call : call + "_twice", words.toArray());
            if (spec.isVerified() && !isValid(privateKey.publicKey(), text, signature)) {
                throw new Refusal(Library.FAULT, "the signature that was made is not valid; was the key checked?");
            }
        }
    }

    private Memory randomizer() {
        return spec.isDeterministic() ? new Memory(0) : Memory.random(set().n(), random);
    }

    private boolean isValid(SlhPublicKey by, Memory text, Memory signature) {
        try (Memory key = by.taken(); Memory context = Memory.copyOf(spec.context())) {
            List<Object> words = words();
            words.addAll(List.of(key, text, context, signature));
            return Library.isDone(isPreHash ? "slh_hash_verify_digest" : "slh_verify", words.toArray());
        }
    }

    /** The first words of each call: the set, and in the pre-hash form the function. */
    private List<Object> words() {
        List<Object> words = new ArrayList<>(List.of(set().number()));
        if (isPreHash) {
            words.add(function().number());
        }
        return words;
    }

    @Override
    protected void engineSetParameter(AlgorithmParameterSpec given) throws InvalidAlgorithmParameterException {
        if (digest != null || !message.isEmpty()) {
            throw new InvalidAlgorithmParameterException("a part of the message was given already");
        }
        if (given != null && !(given instanceof SlhSignatureSpec)) {
            throw new InvalidAlgorithmParameterException("an SlhSignatureSpec is needed");
        }
        SlhSignatureSpec taken = given == null ? SlhSignatureSpec.DEFAULT : (SlhSignatureSpec) given;
        if (taken.function() != null && !isPreHash) {
            throw new InvalidAlgorithmParameterException("the pure form has no function: use HASH-SLH-DSA");
        }
        spec = taken;
    }

    /** There are no parameters to encode: identifiers of SLH-DSA have none (RFC 9814). */
    @Override
    protected AlgorithmParameters engineGetParameters() {
        return null;
    }

    @Override
    @Deprecated
    protected void engineSetParameter(String name, Object value) {
        throw new InvalidParameterException("parameters are an SlhSignatureSpec");
    }

    @Override
    @Deprecated
    protected Object engineGetParameter(String name) {
        throw new InvalidParameterException("there are no such parameters");
    }
}
