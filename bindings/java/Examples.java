import irs.Irs;
import java.io.IOException;
import java.nio.charset.StandardCharsets;
import java.nio.file.Files;
import java.nio.file.Path;
import java.util.Arrays;
import java.util.HashMap;
import java.util.List;
import java.util.Map;
import java.util.stream.Collectors;
import java.util.stream.Stream;

/** Runs each folder of examples/ through libirs, and compares status and text: java Examples FOLDER. */
public final class Examples {
    private static int wrong;

    private static Map<String, byte[]> filesOf(Path folder, List<String> words) throws IOException {
        Map<String, byte[]> files = new HashMap<>();
        for (String word : words) {
            if (Files.isRegularFile(folder.resolve(word))) {
                files.put(word, Files.readAllBytes(folder.resolve(word)));
            }
        }
        return files;
    }

    private static void check(boolean holds, String what) {
        if (!holds) {
            wrong++;
            System.out.println("NOT as stored: " + what);
        }
    }

    private static boolean example(Path folder) throws IOException {
        List<String> all = List.of(Files.readString(folder.resolve("command")).strip().split(" "));
        List<String> words = all.subList(1, all.size());
        if (words.get(0).startsWith("--")) {
            return false;
        }
        Map<String, byte[]> files = filesOf(folder, words.subList(1, words.size()));
        Path stored = folder.resolve("status");
        int status = Files.exists(stored) ? Integer.parseInt(Files.readString(stored).strip()) : 0;
        Irs.Answer answer = Irs.run(words, files);
        check(answer.status() == status, folder + ": status " + answer.status());
        check(Arrays.equals(answer.text(), Files.readAllBytes(folder.resolve("output"))), folder + ": text");
        Path said = folder.resolve("said");
        String sentence = Files.exists(said) ? Files.readString(said).strip() : "";
        check(answer.sentence().equals(sentence), folder + ": sentence");
        try {
            check(Irs.ask(words, files).equals(answer.string()) && status <= 1, folder + ": ask");
        } catch (Irs.Refused refused) {
            check(refused.status == status && status > 1 && !refused.getMessage().isEmpty(), folder + ": refused");
        }
        return true;
    }

    /** Eight threads call at once. */
    private static void threads(Path folder) throws IOException, InterruptedException {
        List<String> words = List.of("schedule", "terms.json", "-");
        Map<String, byte[]> files = filesOf(folder, words);
        String stored = Files.readString(folder.resolve("output"), StandardCharsets.UTF_8);
        List<Thread> all = Stream.generate(() -> new Thread(() -> {
            for (int i = 0; i < 200; i++) {
                if (!Irs.run(words, files).string().equals(stored)) {
                    throw new IllegalStateException("a thread got another text");
                }
            }
        })).limit(8).collect(Collectors.toList());
        all.forEach(thread -> thread.setUncaughtExceptionHandler((it, why) -> wrong++));
        all.forEach(Thread::start);
        for (Thread thread : all) {
            thread.join();
        }
    }

    public static void main(String[] arguments) throws Exception {
        int count = 0;
        try (Stream<Path> folders = Files.list(Path.of(arguments[0]))) {
            for (Path folder : folders.filter(Files::isDirectory).sorted().collect(Collectors.toList())) {
                count += example(folder) ? 1 : 0;
            }
        }
        threads(Path.of(arguments[0], "fixed_leg"));
        check(Irs.version().equals(Files.readString(Path.of(arguments[0], "version", "output"))), "version");
        check(Irs.run(List.of(), Map.of()).status() == 4, "no words");
        check(Irs.run(List.of("check", "gone"), Map.of()).status() == 5, "no file");
        check(Irs.run(List.of("check", "empty"), Map.of("empty", new byte[0])).status() == 2, "an empty file");
        System.out.println(count + " examples through Java, " + wrong + " wrong");
        System.exit(wrong == 0 && count > 0 ? 0 : 1);
    }
}
