package pipitscreen.slh;

import java.io.IOException;
import java.io.InputStream;
import java.lang.foreign.Arena;
import java.lang.foreign.FunctionDescriptor;
import java.lang.foreign.Linker;
import java.lang.foreign.MemoryLayout;
import java.lang.foreign.MemorySegment;
import java.lang.foreign.SymbolLookup;
import java.lang.foreign.ValueLayout;
import java.lang.invoke.MethodHandle;
import java.nio.charset.StandardCharsets;
import java.nio.file.Path;
import java.security.ProviderException;
import java.util.ArrayList;
import java.util.List;
import java.util.Map;
import java.util.concurrent.ConcurrentHashMap;

/** The calls of libslh.so.1 and of the C library, over the foreign-function interface. */
final class Library {
    static final int DONE = 0;
    static final int INVALID = 30;
    static final int FAULT = 38;
    /** Bytes that are enough for each refusal's name. */
    private static final int MAX_NAME = 20;

    private static final String NAME = "libslh.so.1";
    private static final Linker LINKER = Linker.nativeLinker();
    private static final Map<String, MethodHandle> HANDLES = new ConcurrentHashMap<>();
    private static volatile SymbolLookup symbols;

    private Library() {}

    /** The version of this package, as 1.0.0. */
    static String version() {
        try (InputStream in = Library.class.getResourceAsStream("VERSION")) {
            return new String(in.readAllBytes(), StandardCharsets.US_ASCII).strip();
        } catch (IOException fault) {
            throw new ProviderException(fault);
        }
    }

    /**
     * Loads the library, unless it is loaded. One that can't be found, or does not fit, is a
     * ProviderException.
     */
    static synchronized void load() {
        if (symbols != null) {
            return;
        }
        String place = place();
        SymbolLookup found;
        try {
            found = place.contains("/") ? SymbolLookup.libraryLookup(Path.of(place), Arena.global())
                    : SymbolLookup.libraryLookup(place, Arena.global());
        } catch (IllegalArgumentException fault) {
            throw new ProviderException(place + " can't be loaded: set the property slh.library to the path of " + NAME
                    + ", or the variable SLH_PREFIX to the folder that tools/library.sh installed into", fault);
        }
        compareVersions(place, found);
        symbols = found;
    }

    private static String place() {
        String path = System.getProperty("slh.library");
        String prefix = System.getenv("SLH_PREFIX");
        if (path != null) {
            return Path.of(path).toAbsolutePath().toString();
        }
        return prefix == null ? NAME : Path.of(prefix, "lib", NAME).toAbsolutePath().toString();
    }

    /** The first numbers of both versions have to be equal, and the second one of the library's not lower. */
    private static void compareVersions(String place, SymbolLookup found) {
        MethodHandle call = handle(found, "slh_version", List.of(), ValueLayout.JAVA_INT);
        int number;
        try {
            number = (int) call.invokeExact();
        } catch (Throwable fault) {
            throw new ProviderException(fault);
        }
        int major = number / 1000000;
        int minor = number / 1000 % 1000;
        String[] ours = version().split("\\.");
        if (major != Integer.parseInt(ours[0]) || minor < Integer.parseInt(ours[1])) {
            throw new ProviderException(place + " is of version " + major + "." + minor + "." + number % 1000
                    + ", and not " + version() + " or a later one with its first number");
        }
    }

    private static MethodHandle handle(SymbolLookup from, String name, List<MemoryLayout> words, MemoryLayout result) {
        MemorySegment at = from.find(name)
                .orElseThrow(() -> new ProviderException("the library has no " + name));
        MemoryLayout[] layouts = words.toArray(MemoryLayout[]::new);
        return LINKER.downcallHandle(at, result == null ? FunctionDescriptor.ofVoid(layouts)
                : FunctionDescriptor.of(result, layouts));
    }

    /**
     * Calls by name: a number is a uint32_t, a Long a size_t, a Memory a pointer and a length, a MemorySegment a pointer.
     * Returns the result, a uint32_t.
     */
    static int call(String name, Object... words) {
        return (int) invoke(ValueLayout.JAVA_INT, name, words);
    }

    private static Object invoke(MemoryLayout result, String name, Object... words) {
        load();
        List<MemoryLayout> layouts = new ArrayList<>();
        List<Object> given = new ArrayList<>();
        for (Object word : words) {
            addWord(word, layouts, given);
        }
        MethodHandle call = HANDLES.computeIfAbsent(name, it -> handle(symbols, it, layouts, result));
        try {
            return call.invokeWithArguments(given);
        } catch (RuntimeException | Error fault) {
            throw fault;
        } catch (Throwable fault) {
            throw new ProviderException(fault);
        }
    }

    private static void addWord(Object word, List<MemoryLayout> layouts, List<Object> given) {
        if (word instanceof Integer) {
            layouts.add(ValueLayout.JAVA_INT);
            given.add(word);
        } else if (word instanceof Long) {
            layouts.add(ValueLayout.JAVA_LONG);
            given.add(word);
        } else if (word instanceof Memory memory) {
            layouts.addAll(List.of(ValueLayout.ADDRESS, ValueLayout.JAVA_LONG));
            given.addAll(List.of(memory.segment(), memory.segment().byteSize()));
        } else {
            layouts.add(ValueLayout.ADDRESS);
            given.add(word);
        }
    }

    /** Calls, and throws a Refusal unless the call is done or the answer is that something is not valid. */
    static boolean isDone(String name, Object... words) {
        int result = call(name, words);
        if (result != DONE && result != INVALID) {
            throw new Refusal(result);
        }
        return result == DONE;
    }

    /** Calls, and throws a Refusal unless the call is done. */
    static void done(String name, Object... words) {
        int result = call(name, words);
        if (result != DONE) {
            throw new Refusal(result);
        }
    }

    /** The name of a refusal, or null if the library has none for this number. */
    static String refusalName(int number) {
        try (Memory name = new Memory(MAX_NAME)) {
            return call("slh_refusal_name", number, name) == DONE ? name.segment().getString(0) : null;
        }
    }

    /** A sentence for a refusal's number. */
    static String refusalText(int number) {
        MemorySegment text = (MemorySegment) invoke(ValueLayout.ADDRESS, "slh_refusal_text", number);
        return text.reinterpret(1000).getString(0);
    }

    /** Fills memory with random bytes of the system. The generator has to be ready first, which Linux waits for. */
    static void random(Memory memory) {
        MethodHandle call = HANDLES.computeIfAbsent("getentropy", it -> handle(LINKER.defaultLookup(), it,
                List.of(ValueLayout.ADDRESS, ValueLayout.JAVA_LONG), ValueLayout.JAVA_INT));
        int status;
        try {
            status = (int) call.invokeExact(memory.segment(), memory.segment().byteSize());
        } catch (Throwable fault) {
            throw new ProviderException(fault);
        }
        if (status != 0) {
            throw new ProviderException("the system gives no random bytes");
        }
    }

    /** Overwrites memory with zeros. */
    static void erase(MemorySegment segment) {
        segment.fill((byte) 0);
    }
}
