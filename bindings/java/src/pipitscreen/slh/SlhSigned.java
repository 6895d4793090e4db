package pipitscreen.slh;

import java.lang.foreign.Arena;
import java.lang.foreign.MemorySegment;
import java.lang.foreign.ValueLayout;
import java.util.ArrayList;
import java.util.EnumMap;
import java.util.List;
import java.util.Map;

/**
 * A signature with its key, message and context: an item of verifyMany. The arrays are not copied before that call.
 *
 * @param key the key that has to have signed
 * @param message the message
 * @param context the context, which is invalid above 255 bytes
 * @param signature the signature, which is invalid if it has another length than the set's
 */
public record SlhSigned(SlhPublicKey key, byte[] message, byte[] context, byte[] signature) {
    /** The bytes of slh_signed: four pointers and four lengths. */
    private static final long ITEM = 64;
    private static final long WORD = 8;

    /**
     * Verifies signatures of the pure form, in less time than one by one. The keys may be of several sets: the library
     * is called once for each set.
     *
     * @param items any number of signatures
     * @return for each item, in order, whether its signature is valid
     */
    public static boolean[] verifyMany(List<SlhSigned> items) {
        boolean[] valid = new boolean[items.size()];
        Map<SlhSet, List<Integer>> places = new EnumMap<>(SlhSet.class);
        for (int at = 0; at < valid.length; at++) {
            places.computeIfAbsent(items.get(at).key().set(), set -> new ArrayList<>()).add(at);
        }
        places.forEach((set, of) -> {
            int[] verdicts = verdicts(set, of.stream().map(items::get).toList());
            for (int it = 0; it < verdicts.length; it++) {
                valid[of.get(it)] = verdicts[it] == Library.DONE;
            }
        });
        return valid;
    }

    /** The verdicts on items whose keys are of one set. */
    private static int[] verdicts(SlhSet set, List<SlhSigned> items) {
        long length = items.stream().mapToLong(SlhSigned::length).sum();
        try (Arena arena = Arena.ofConfined(); Memory bytes = new Memory(length)) {
            MemorySegment given = arena.allocate(ITEM * items.size(), WORD);
            MemorySegment verdicts = arena.allocate(ValueLayout.JAVA_INT, items.size());
            for (int it = 0; it < items.size(); it++) {
                // No verdict begins as valid.
                verdicts.setAtIndex(ValueLayout.JAVA_INT, it, Library.INVALID);
            }
            long place = 0;
            long word = 0;
            for (SlhSigned it : items) {
                for (byte[] part : it.parts()) {
                    MemorySegment copy = bytes.segment().asSlice(place, part.length);
                    copy.copyFrom(MemorySegment.ofArray(part));
                    given.set(ValueLayout.ADDRESS, word, copy);
                    given.set(ValueLayout.JAVA_LONG, word + WORD, part.length);
                    place += part.length;
                    word += 2 * WORD;
                }
            }
            Library.isDone("slh_verify_many", set.number(), given, (long) items.size(), verdicts, (long) items.size());
            return verdicts.toArray(ValueLayout.JAVA_INT);
        }
    }

    private List<byte[]> parts() {
        return List.of(key.held(), message, context, signature);
    }

    private long length() {
        return parts().stream().mapToLong(part -> part.length).sum();
    }
}
