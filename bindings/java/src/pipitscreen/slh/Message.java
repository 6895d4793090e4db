package pipitscreen.slh;

import java.lang.foreign.MemorySegment;
import java.lang.foreign.ValueLayout;
import java.nio.ByteBuffer;

/** A message in pieces, which are held outside the heap until they are overwritten. */
final class Message implements AutoCloseable {
    private static final long FIRST_ROOM = 1024;

    private Memory room;
    private long length;

    void add(byte[] bytes, int at, int count) {
        MemorySegment.copy(bytes, at, more(count), ValueLayout.JAVA_BYTE, 0, count);
    }

    void add(ByteBuffer bytes) {
        more(bytes.remaining()).copyFrom(MemorySegment.ofBuffer(bytes));
        bytes.position(bytes.limit());
    }

    /** The room behind the message, of which so many bytes are now the message's. */
    private MemorySegment more(int count) {
        long had = room == null ? 0 : room.segment().byteSize();
        if (room == null || length + count > had) {
            grow(Math.max(length + count, Math.max(FIRST_ROOM, 2 * had)));
        }
        length += count;
        return room.segment().asSlice(length - count, count);
    }

    private void grow(long needed) {
        Memory larger = new Memory(needed);
        if (room != null) {
            larger.segment().copyFrom(room.segment());
            room.close();
        }
        room = larger;
    }

    boolean isEmpty() {
        return length == 0;
    }

    /** The message, until more is added or it is closed. */
    Memory whole() {
        return room == null ? new Memory(0) : room.first(length);
    }

    /** Overwrites the message. It is empty then. */
    @Override
    public void close() {
        if (room != null) {
            room.close();
        }
        room = null;
        length = 0;
    }
}
