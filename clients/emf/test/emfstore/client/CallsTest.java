package emfstore.client;

import java.io.FilterInputStream;
import java.io.FilterOutputStream;
import java.io.IOException;
import java.io.InputStream;
import java.io.OutputStream;
import java.nio.file.Files;
import java.nio.file.Path;
import java.util.List;
import java.util.Random;
import java.util.concurrent.TimeUnit;

/** No reply is ever taken for another command's, whatever is thrown in the midst of a call, and each end of the program has its type and words. */
final class CallsTest extends Fixture {
    private static final int SEEDS = 1_000;
    private static final int COMMANDS = 6;
    /** As many bytes as those commands send at most, so that a fault may come at each of them. */
    private static final int BYTES_SENT = 150;
    private static final int BYTES_READ = 60;
    private static final int KILLED = 137;

    CallsTest(Path program, Path folder, Path tests) {
        super(program, folder, tests);
    }

    void run() throws IOException {
        guards();
        faults();
        threads();
        ends();
    }

    /** What would get no reply, or more than one, isn't sent, and the next command has its own reply. */
    private void guards() throws IOException {
        try (Store store = start(profile(kinds))) {
            store.send("checkout 0");
            List<Runnable> calls = List.of(
                    () -> store.send(""),
                    () -> store.send("\r"),
                    () -> store.send("# a comment"),
                    () -> store.send("import 1"),
                    () -> store.send("load 1\r"),
                    () -> store.send("evolve"),
                    () -> store.send("log", "[]"),
                    () -> store.send("import 1", "[]\n.\nlog"),
                    () -> store.send("import 1", ".\n[]"),
                    () -> store.send("import 1", "[]\n.\r\n"),
                    () -> store.send("log\nlog"),
                    () -> store.send("create 1 Node / \ud800"),
                    () -> store.send("set 1 x name \"" + "x".repeat(Store.LINE_BYTES) + "\""),
                    () -> store.send("import 1", " ".repeat(Store.BLOCK_BYTES) + "\n"));
            for (int i = 0; i < calls.size(); i++) {
                checkRefused(0, calls.get(i));
                check(store.send("create 1 Node / n" + i).words().equals(List.of("n" + i)), "call " + i + " leaves a reply");
            }
            checkRefused(1, () -> store.send("import 1 ", ""));
            checkRefused(29, () -> store.send("import 1", "\n\n. \n"));
            check(store.send("create 1 Node / last").words().equals(List.of("last")), "a block leaves a reply");
            tell(calls.size() + " calls that get no reply of their own");
        }
    }

    /** A fault, an error or an interrupt at some byte of a call: each reply is that of its command, and after a fault there are no more. */
    private void faults() throws IOException {
        start(profile(kinds)).close();
        Path place = folder.resolve("store" + stores);
        int cut = 0;
        for (int seed = 0; seed < SEEDS; seed++) {
            Random random = new Random(seed);
            FaultyProcess process = new FaultyProcess(new ProcessBuilder(program.toString()).directory(place.toFile()).start(), random);
            Store store = new Store(program, place, process);
            boolean isCut = false;
            for (int i = 0; i < COMMANDS; i++) {
                try {
                    Reply reply = i % 2 == 0 ? store.ask("show " + (1_000_000 + i)) : store.ask("tag t" + seed + "x" + i + " 0");
                    check(!isCut, "seed " + seed + ": a reply after a fault");
                    check(i % 2 == 0 ? reply.refusal() == 5 : reply.isAccepted(), "seed " + seed + ": another command's reply: " + reply);
                } catch (EndedException ended) {
                    isCut = true;
                } catch (FaultyProcess.Thrown thrown) {
                    check(!isCut, "seed " + seed + ": two faults");
                    isCut = true;
                }
            }
            Thread.interrupted();
            store.close();
            check(!process.isAlive(), "seed " + seed + ": the program lives on");
            cut += isCut ? 1 : 0;
        }
        check(cut > SEEDS / 2 && cut < SEEDS, cut + " of " + SEEDS + " are cut off");
        tell(SEEDS + " runs with a fault or an interrupt at some byte, " + cut + " cut off");
    }

    /** The program with a fault in its streams: by chance a throwable of some kind, or an interrupt, as a byte is written or read. */
    private static final class FaultyProcess extends Process {
        /** A fault that isn't one of the streams. */
        static final class Thrown extends Error {
            private static final long serialVersionUID = 1;
        }

        private final Process real;
        private final Random random;
        private final OutputStream input;
        private final InputStream output;
        private int left;

        FaultyProcess(Process real, Random random) {
            this.real = real;
            this.random = random;
            boolean isRead = random.nextBoolean();
            left = random.nextInt(isRead ? BYTES_READ : BYTES_SENT);
            input = new FilterOutputStream(real.getOutputStream()) {
                @Override
                public void write(int b) throws IOException {
                    if (!isRead) {
                        pass();
                    }
                    out.write(b);
                }
            };
            output = new FilterInputStream(real.getInputStream()) {
                @Override
                public int read(byte[] bytes, int from, int count) throws IOException {
                    if (isRead) {
                        pass();
                    }
                    return in.read(bytes, from, isRead ? 1 : count);
                }
            };
        }

        private void pass() throws IOException {
            if (left-- != 0) {
                return;
            }
            switch (random.nextInt(4)) {
                case 0 -> throw new IOException("a fault");
                case 1 -> throw new Thrown();
                case 2 -> real.destroyForcibly();
                default -> Thread.currentThread().interrupt();
            }
        }

        @Override
        public OutputStream getOutputStream() {
            return input;
        }

        @Override
        public InputStream getInputStream() {
            return output;
        }

        @Override
        public InputStream getErrorStream() {
            return real.getErrorStream();
        }

        @Override
        public int waitFor() throws InterruptedException {
            return real.waitFor();
        }

        @Override
        public boolean waitFor(long time, TimeUnit unit) throws InterruptedException {
            return real.waitFor(time, unit);
        }

        @Override
        public int exitValue() {
            return real.exitValue();
        }

        @Override
        public void destroy() {
            real.destroy();
        }

        @Override
        public Process destroyForcibly() {
            return real.destroyForcibly();
        }

        @Override
        public boolean isAlive() {
            return real.isAlive();
        }
    }

    /** Threads that share a store have the replies to their own commands, and one that is kept out waits. */
    private void threads() throws IOException {
        try (Store store = start(profile(kinds))) {
            store.send("checkout 0");
            List<Thread> threads = List.of(1, 2, 3, 4).stream().map(it -> new Thread(() -> {
                for (int i = 0; i < 200; i++) {
                    String id = "t" + it + "x" + i;
                    String got = store.alone(() -> {
                        store.send("begin 1 one");
                        String made = store.send("create 1 Node / " + id).words().get(0);
                        store.send("end 1");
                        return made;
                    });
                    check(got.equals(id), "another thread's reply");
                }
            })).toList();
            threads.forEach(Thread::start);
            for (Thread thread : threads) {
                thread.join();
            }
            check(store.send("changes 1").data().size() == 1600, "threads are mixed");
        } catch (InterruptedException interrupted) {
            throw new AssertionError(interrupted);
        }
    }

    /** Each end of the program is told by its type and its words. */
    private void ends() throws IOException {
        Store first = start(profile(kinds));
        first.send("log");
        try (Store second = new Store(program, first.folder())) {
            checkEnded(InUseException.class, "the store is in use by another program", () -> second.send("log"));
            checkEnded(EndedException.class, "the store is closed: the store is in use by another program", () -> second.send("log"));
        }
        first.send("log");
        first.kill();
        String killed = "emfstore ended with status " + KILLED + ": a signal ended it; all that was answered is kept";
        checkEnded(EndedException.class, killed, () -> first.send("log"));
        first.close();
        checkEnded(EndedException.class, "the store is closed: emfstore ended", () -> first.send("log"));
        Path damaged = Files.createDirectory(folder.resolve("damaged"));
        byte[] bytes = Files.readAllBytes(first.folder().resolve(Store.JOURNAL));
        bytes[bytes.length / 2] ^= 1;
        Files.write(damaged.resolve(Store.JOURNAL), bytes);
        try (Store store = new Store(program, damaged)) {
            checkEnded(DamagedException.class, "the store is damaged at byte ", () -> store.send("log"));
        }
        Path failing = Files.createDirectory(folder.resolve("failing"));
        Files.createDirectory(failing.resolve(Store.JOURNAL));
        try (Store store = new Store(program, failing)) {
            checkEnded(DiskFaultException.class, "the store's file can't be used", () -> store.send("log"));
        }
        tell("the ends of a program, each by its type and words");
    }

    private static void checkEnded(Class<? extends EndedException> type, String words, Runnable call) {
        try {
            call.run();
        } catch (EndedException ended) {
            check(ended.getClass() == type && ended.getMessage().startsWith(words), "ended otherwise: " + ended);
            return;
        }
        throw new AssertionError("not ended: " + words);
    }
}
