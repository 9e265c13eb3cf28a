package irs;

import com.sun.jna.IntegerType;
import com.sun.jna.Library;
import com.sun.jna.Memory;
import com.sun.jna.Native;
import com.sun.jna.Pointer;
import java.lang.ref.Reference;
import java.nio.charset.StandardCharsets;
import java.util.List;
import java.util.Map;

/**
 * libirs for Java 17, by JNA: words and files in, status, text and sentence out. Words, files, texts and statuses are those of
 * the program (docs/FORMATS.md).
 *
 * <p>The system property {@code irs.library} names the library's file; without it {@code libirs.so.1} is looked
 * for where the system's linker looks. Nothing is kept between calls, so threads may call side by side.
 */
public final class Irs {
    /**
     * What a command comes to: the status of the program, the text that it prints, in UTF-8, and what that means in
     * one plain sentence. The sentence is empty at status 0, but where payments have no amount for want of a fixing.
     */
    public record Answer(int status, byte[] text, String sentence) {
        /** The text as a string. */
        public String string() {
            return new String(text, StandardCharsets.UTF_8);
        }

        /** The first line of the text, without its end. */
        public String line() {
            return string().lines().findFirst().orElse("");
        }
    }

    /** An answer that has no text to go on with: the terms break a rule, or a file or a word is at fault. */
    public static final class Refused extends Exception {
        private static final long serialVersionUID = 1L;
        /** The status, 2 to 5, 8 or 9. */
        public final int status;
        /** The line that the program prints, as {@code refused K12 1 paymentDates 2}. */
        public final String line;

        Refused(int status, String line, String sentence) {
            super(sentence);
            this.status = status;
            this.line = line;
        }
    }

    /** A size_t. */
    public static final class Size extends IntegerType {
        private static final long serialVersionUID = 1L;

        /** JNA makes one of these for what a call returns. */
        public Size() {
            this(0);
        }

        /** A size. */
        public Size(long value) {
            super(Native.SIZE_T_SIZE, value, true);
        }
    }

    /** The calls of irs.h. */
    interface Calls extends Library {
        byte irs_run(Pointer words, Size wordCount, Pointer files, Size fileCount, Pointer out, Size outLength,
                     Pointer needed, Pointer said, Size saidLength, Pointer saidNeeded);

        void irs_version(Pointer out, Size outLength, Pointer needed);
    }

    /** A call of the library that fills a buffer with a text, and one with a sentence. */
    private interface Filled {
        byte call(Pointer out, Size length, Pointer needed, Pointer said, Size saidLength, Pointer saidNeeded);
    }

    private static final int ROOM = 1 << 16;
    private static final int SENTENCE_ROOM = 1 << 10;
    private static final int PAIR = Native.POINTER_SIZE + Native.SIZE_T_SIZE;
    private static final Calls CALLS = Native.load(System.getProperty("irs.library", "libirs.so.1"), Calls.class);

    private Irs() {}

    /**
     * Does what the program does on a command line, with files from memory: {@code words} are the words after the
     * program's name. A file that isn't in {@code files} is one that can't be read: status 5.
     *
     * @throws OutOfMemoryError where the library's memory runs out
     */
    public static Answer run(List<String> words, Map<String, byte[]> files) {
        Pairs lentWords = wordsOf(words);
        Pairs lentFiles = new Pairs(2 * files.size());
        files.forEach((name, bytes) -> lentFiles.add(utf8(name)).add(bytes));
        try {
            return filled((out, length, needed, said, saidLength, saidNeeded) -> CALLS.irs_run(
                lentWords.memory, new Size(words.size()), lentFiles.memory, new Size(files.size()), out, length,
                needed, said, saidLength, saidNeeded));
        } finally {
            // The bytes are native memory that the collector frees: they stay until the call is over.
            Reference.reachabilityFence(lentWords);
            Reference.reachabilityFence(lentFiles);
        }
    }

    /** What {@code irs --version} prints: the versions, and the logic sum of the kit that proves the library. */
    public static String version() {
        return filled((out, length, needed, said, saidLength, saidNeeded) -> {
            CALLS.irs_version(out, length, needed);
            return 0;
        }).string();
    }

    /** As {@link #run}, but throws {@link Refused} for every status but 0 and 1; with 1 cash flows depart. */
    public static String ask(List<String> words, Map<String, byte[]> files) throws Refused {
        Answer answer = run(words, files);
        if (answer.status() > 1) {
            throw new Refused(answer.status(), answer.line(), answer.sentence());
        }
        return answer.string();
    }

    private static Answer filled(Filled call) {
        try (Memory needed = new Memory(Native.SIZE_T_SIZE); Memory saidNeeded = new Memory(Native.SIZE_T_SIZE)) {
            saidNeeded.clear();
            long room = ROOM;
            long saidRoom = SENTENCE_ROOM;
            for (;;) {
                try (Memory out = new Memory(room); Memory said = new Memory(saidRoom)) {
                    int status = call.call(out, new Size(room), needed, said, new Size(saidRoom), saidNeeded) & 0xff;
                    if (status == 7) {
                        throw new OutOfMemoryError("libirs ran out of memory");
                    }
                    long length = needed.getLong(0);
                    long saidLength = saidNeeded.getLong(0);
                    if (length <= room && saidLength <= saidRoom) {
                        byte[] sentence = said.getByteArray(0, Math.toIntExact(saidLength));
                        return new Answer(status, out.getByteArray(0, Math.toIntExact(length)),
                            new String(sentence, StandardCharsets.UTF_8));
                    }
                    room = Math.max(room, length);
                    saidRoom = Math.max(saidRoom, saidLength);
                }
            }
        }
    }

    private static Pairs wordsOf(List<String> words) {
        Pairs lent = new Pairs(words.size());
        words.forEach(word -> lent.add(utf8(word)));
        return lent;
    }

    private static byte[] utf8(String text) {
        return text.getBytes(StandardCharsets.UTF_8);
    }

    /** The bytes in native memory, where no pointer is NULL, also of no bytes. */
    private static Memory bytesOf(byte[] bytes) {
        Memory memory = new Memory(Math.max(1, bytes.length));
        memory.write(0, bytes, 0, bytes.length);
        return memory;
    }

    /** An array of struct irs_bytes, and the bytes that it points to. */
    private static final class Pairs {
        private final Memory memory;
        private final Memory[] held;
        private int count;

        Pairs(int most) {
            memory = new Memory((long) PAIR * Math.max(1, most));
            held = new Memory[most];
        }

        Pairs add(byte[] bytes) {
            Memory at = bytesOf(bytes);
            held[count] = at;
            memory.setPointer((long) PAIR * count, at);
            memory.setLong((long) PAIR * count + Native.POINTER_SIZE, bytes.length);
            count++;
            return this;
        }
    }
}
