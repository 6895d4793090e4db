package pipitscreen.slh;

import java.security.Signature;
import java.util.ArrayList;
import java.util.Arrays;
import java.util.Collections;
import java.util.List;

/** Many signatures in one call: those that other implementations made, and damaged ones. */
final class ManyTests {
    private static final int[] COUNTS = {0, 1, 7, 8, 9, 17};
    private static final int[][] PLACES = {{1, 0}, {7, 3}, {8, 0}, {8, 7}, {9, 8}, {17, 8}, {17, 16}};

    private ManyTests() {}

    private static void expectVerdicts(List<SlhSigned> items, boolean[] wanted, String what) {
        Tests.same(Arrays.toString(SlhSigned.verifyMany(items)), Arrays.toString(wanted), what);
    }

    /** The tests of all sets, in lists that begin at each seventh test. */
    static void verdicts() throws Exception {
        List<SlhSigned> items = new ArrayList<>();
        StringBuilder letters = new StringBuilder();
        for (SlhSet set : SlhSet.values()) {
            for (Vectors it : Vectors.of(set, "verify")) {
                if (it.isPure()) {
                    SlhPublicKey key = SlhPublicKey.of(set, it.bytes("pk"));
                    items.add(new SlhSigned(key, it.bytes("message"), it.bytes("context"), it.bytes("signature")));
                    letters.append(it.members().get("valid").charAt(0));
                }
            }
        }
        for (int count : COUNTS) {
            for (int first = 0; first + count <= items.size(); first += 7) {
                boolean[] wanted = new boolean[count];
                for (int at = 0; at < count; at++) {
                    wanted[at] = letters.charAt(first + at) == 't';
                }
                expectVerdicts(items.subList(first, first + count), wanted, count + " from " + first + " on");
            }
        }
    }

    private static SlhPrivateKey key(int number) throws Exception {
        byte[] seed = new byte[16];
        Arrays.fill(seed, (byte) number);
        return SlhPrivateKey.keygen(SlhSet.SHA2_128F, seed, seed, seed);
    }

    /** In a list of valid items one has another message, context, key or signature. */
    static void oneDamagedItem() throws Exception {
        SlhPrivateKey secret = key(1);
        SlhPublicKey key = secret.publicKey();
        SlhPublicKey other = key(2).publicKey();
        byte[] letter = {1, 2, 3};
        byte[] none = {};
        Signature signing = Signature.getInstance("SLH-DSA", Tests.PROVIDER);
        signing.initSign(secret);
        signing.update(letter);
        byte[] signature = signing.sign();
        byte[] damaged = signature.clone();
        damaged[damaged.length - 1] ^= 1;
        SlhSigned good = new SlhSigned(key, letter, none, signature);
        List<SlhSigned> bad = List.of(new SlhSigned(other, letter, none, signature),
                new SlhSigned(key, new byte[] {1, 2}, none, signature), new SlhSigned(key, none, none, signature),
                new SlhSigned(key, letter, letter, signature), new SlhSigned(key, letter, new byte[256], signature),
                new SlhSigned(key, letter, none, damaged), new SlhSigned(key, letter, none, none),
                new SlhSigned(key, letter, none, Arrays.copyOf(signature, signature.length - 1)));
        for (int[] at : PLACES) {
            for (SlhSigned it : bad) {
                List<SlhSigned> items = new ArrayList<>(Collections.nCopies(at[0], good));
                boolean[] wanted = new boolean[at[0]];
                Arrays.fill(wanted, true);
                items.set(at[1], it);
                wanted[at[1]] = false;
                expectVerdicts(items, wanted, at[0] + " items, " + at[1]);
            }
        }
    }
}
