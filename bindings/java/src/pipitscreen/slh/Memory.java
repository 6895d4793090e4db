package pipitscreen.slh;

import java.lang.foreign.Arena;
import java.lang.foreign.MemorySegment;
import java.lang.foreign.ValueLayout;
import java.lang.ref.Cleaner;
import java.security.SecureRandom;
import java.util.Arrays;

/**
 * Bytes outside the Java heap, so that no garbage collector copies them. They are zeros at first, and are overwritten
 * with zeros before they are freed: by close, or at the latest when this object is unreachable.
 */
final class Memory implements AutoCloseable {
    private static final Cleaner CLEANER = Cleaner.create();

    private final MemorySegment segment;
    private final Cleaner.Cleanable cleanable;

    Memory(long length) {
        Arena arena = Arena.ofShared();
        MemorySegment made = arena.allocate(length);
        segment = made;
        // The action has no reference to this object: it would be reachable for ever.
        cleanable = CLEANER.register(this, () -> {
            Library.erase(made);
            arena.close();
        });
    }

    /** A part of other memory, which close leaves as it is. */
    private Memory(MemorySegment part) {
        segment = part;
        cleanable = () -> { };
    }

    static Memory copyOf(byte[] bytes) {
        return copyOf(bytes, 0, bytes.length);
    }

    static Memory copyOf(byte[] bytes, int at, int length) {
        Memory made = new Memory(length);
        MemorySegment.copy(bytes, at, made.segment, ValueLayout.JAVA_BYTE, 0, length);
        return made;
    }

    static Memory copyOf(MemorySegment from) {
        Memory made = new Memory(from.byteSize());
        made.segment.copyFrom(from);
        return made;
    }

    /**
     * Random bytes. Those of the system's generators are drawn from the system into this memory, since SecureRandom
     * gives an array of the heap; the array of any other generator is overwritten.
     */
    static Memory random(int length, SecureRandom random) {
        Memory made = new Memory(length);
        if (random == null || isOfSystem(random)) {
            Library.random(made);
            return made;
        }
        byte[] drawn = new byte[length];
        try {
            random.nextBytes(drawn);
            MemorySegment.copy(drawn, 0, made.segment, ValueLayout.JAVA_BYTE, 0, length);
        } finally {
            Arrays.fill(drawn, (byte) 0);
        }
        return made;
    }

    private static boolean isOfSystem(SecureRandom random) {
        return random.getClass() == SecureRandom.class && random.getAlgorithm().startsWith("NativePRNG");
    }

    /** These bytes, until close. */
    MemorySegment segment() {
        return segment;
    }

    /** The first bytes, for as long as this memory is not closed. */
    Memory first(long length) {
        return new Memory(segment.asSlice(0, length));
    }

    int length() {
        return Math.toIntExact(segment.byteSize());
    }

    /** A copy on the heap, which nothing erases but its receiver. */
    byte[] toBytes() {
        return segment.toArray(ValueLayout.JAVA_BYTE);
    }

    /** Whether both have equal bytes, in a time that depends on their length alone. */
    boolean isEqual(Memory other) {
        int difference = length() ^ other.length();
        for (int at = 0; at < Math.min(length(), other.length()); at++) {
            difference |= segment.get(ValueLayout.JAVA_BYTE, at) ^ other.segment.get(ValueLayout.JAVA_BYTE, at);
        }
        return difference == 0;
    }

    /** Overwrites the bytes, and frees them. A second time it does nothing. */
    @Override
    public void close() {
        cleanable.clean();
    }

    @Override
    public String toString() {
        return "memory outside the heap";
    }
}
