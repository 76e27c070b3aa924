package emfstore.client;

import java.io.EOFException;
import java.io.IOException;
import java.io.InputStream;
import java.io.OutputStream;
import java.nio.ByteBuffer;
import java.nio.CharBuffer;
import java.nio.charset.CharacterCodingException;
import java.nio.charset.StandardCharsets;
import java.nio.file.Files;
import java.nio.file.Path;
import java.util.ArrayList;
import java.util.Arrays;
import java.util.List;
import java.util.Set;
import java.util.concurrent.CompletableFuture;
import java.util.concurrent.TimeUnit;
import java.util.concurrent.locks.ReentrantLock;
import java.util.function.Supplier;

/**
 * The program, running over the store of a folder. One program at a time has a store.
 *
 * <p>Threads may share a Store: each call waits for the one before it, and {@link #alone} keeps others out for several calls. A call whose reply
 * isn't read to its end, by whatever was thrown meanwhile, ends the program; so no later call takes that reply for its own. An interrupt of the
 * thread ends no call. {@link #kill} does, from another thread.
 */
public final class Store implements AutoCloseable {
    /** The bytes that a line may have. */
    static final int LINE_BYTES = 1 << 20;
    /** The bytes that the lines of a block may have. */
    static final int BLOCK_BYTES = 1 << 23;
    static final String JOURNAL = "emfstore.journal";

    private static final Set<String> WITH_BLOCKS = Set.of("init", "evolve", "import", "load");
    private static final int SECONDS_TO_DIE = 10;
    /** The status by which the lock is found taken. */
    private static final int LOCKED = 75;

    private final Path program;
    private final Path folder;
    private final Process process;
    private final OutputStream input;
    private final ReplyStream output;
    private final CompletableFuture<String> errors = new CompletableFuture<>();
    private final ReentrantLock turn = new ReentrantLock();
    private volatile EndedException ended;
    private volatile boolean isKilled;
    private boolean hasAnswered;

    /**
     * Starts the program that the property `emfstore` or the variable EMFSTORE names, or else the `emfstore` of PATH.
     *
     * @throws IOException where it can't be found or started
     */
    public Store(Path folder) throws IOException {
        this(Programs.find(), folder);
    }

    /**
     * Starts the program whose path is given.
     *
     * @throws IOException where it can't be started
     */
    public Store(Path program, Path folder) throws IOException {
        this(program, folder, new ProcessBuilder(program.toAbsolutePath().toString()).directory(folder.toFile()).start());
    }

    /** The store behind a program that runs already. */
    Store(Path program, Path folder, Process process) {
        this.program = program;
        this.folder = folder;
        this.process = process;
        input = process.getOutputStream();
        output = new ReplyStream(process.getInputStream());
        Thread reader = new Thread(this::readErrors, "emfstore's standard error");
        reader.setDaemon(true);
        reader.start();
    }

    /**
     * Sends a command of one line, and waits for its reply.
     *
     * @throws RefusedException where it is refused
     * @throws IllegalArgumentException where it is none, or wants a block: nothing is sent then
     * @throws EndedException where the program has ended, or ends without a reply
     */
    public Reply send(String line) {
        return accepted(line, ask(line));
    }

    /**
     * Sends a command with a block, and waits for its reply.
     *
     * @throws RefusedException where it is refused
     * @throws IllegalArgumentException where it takes no block, or a line of the block would end it: nothing is sent then
     * @throws EndedException where the program has ended, or ends without a reply
     */
    public Reply send(String line, String block) {
        return accepted(line, ask(line, block));
    }

    /** As {@link #send(String)}, but a refusal is returned as the reply that it is. */
    public Reply ask(String line) {
        return call(line, bytes(line, null));
    }

    /** As {@link #send(String, String)}, but a refusal is returned as the reply that it is. */
    public Reply ask(String line, String block) {
        return call(line, bytes(line, block));
    }

    /** Makes several calls in the turn of one: those of other threads wait. */
    public <T> T alone(Supplier<T> calls) {
        turn.lock();
        try {
            return calls.get();
        } finally {
            turn.unlock();
        }
    }

    /** As {@link #alone(Supplier)}, where nothing comes of the calls. */
    public void alone(Runnable calls) {
        alone(() -> {
            calls.run();
            return null;
        });
    }

    /** All versions, in the order of their numbers. */
    public List<Version> log() {
        return send("log").data().stream().map(Version::read).toList();
    }

    /** Whether no more calls can be made. */
    boolean hasEnded() {
        return ended != null || !process.isAlive();
    }

    /** The folder of the store. */
    public Path folder() {
        return folder;
    }

    /** The program that is running. */
    Path program() {
        return program;
    }

    /** Ends the input, and waits until the program has ended. A call on its way is waited for. */
    @Override
    public void close() {
        alone(() -> {
            if (ended == null) {
                ended = endOfInput();
            }
        });
    }

    /** Ends the program at once, from any thread. A call on its way ends by an {@link EndedException}. */
    public void kill() {
        isKilled = true;
        process.destroyForcibly();
    }

    private Reply call(String line, byte[] bytes) {
        return alone(() -> {
            if (ended != null) {
                throw EndedException.again(ended);
            }
            boolean isWhole = false;
            try {
                input.write(bytes);
                input.flush();
                Reply reply = read(line);
                isWhole = true;
                hasAnswered = true;
                return reply;
            } catch (IOException fault) {
                ended = endOfOutput(fault);
                throw ended;
            } finally {
                if (!isWhole && ended == null) {
                    ended = cutOff(null);
                }
            }
        });
    }

    /** What a command is as bytes; it is one only where exactly one reply will come of it. */
    private static byte[] bytes(String line, String block) {
        String bare = line.endsWith("\r") ? line.substring(0, line.length() - 1) : line;
        if (line.indexOf('\n') >= 0) {
            throw new IllegalArgumentException("a line feed in a line");
        }
        if (bare.isEmpty() || line.startsWith("#")) {
            throw new IllegalArgumentException("an empty line and a comment get no reply");
        }
        if (WITH_BLOCKS.contains(bare.split(" ", -1)[0]) != (block != null)) {
            throw new IllegalArgumentException(block == null ? "the command wants a block: " + bare : "the command takes no block: " + shown(bare));
        }
        byte[] bytes = utf8(line);
        if (bytes.length > LINE_BYTES) {
            throw new IllegalArgumentException("a line of more than " + LINE_BYTES + " bytes");
        }
        return utf8(line + "\n" + (block == null ? "" : checked(block) + ".\n"));
    }

    private static String checked(String block) {
        String whole = block.isEmpty() || block.endsWith("\n") ? block : block + "\n";
        if (whole.startsWith(".\n") || whole.startsWith(".\r\n") || whole.contains("\n.\n") || whole.contains("\n.\r\n")) {
            throw new IllegalArgumentException("a line of the block is just a dot, which would end it");
        }
        if (utf8(whole).length > BLOCK_BYTES) {
            throw new IllegalArgumentException("a block of more than " + BLOCK_BYTES + " bytes");
        }
        return whole;
    }

    private static byte[] utf8(String text) {
        try {
            ByteBuffer bytes = StandardCharsets.UTF_8.newEncoder().encode(CharBuffer.wrap(text));
            return Arrays.copyOf(bytes.array(), bytes.limit());
        } catch (CharacterCodingException lone) {
            throw new IllegalArgumentException("half of a character, which has no UTF-8", lone);
        }
    }

    static String shown(String line) {
        return line.length() > 200 ? line.substring(0, 200) + ".." : line;
    }

    private static Reply accepted(String line, Reply reply) {
        if (!reply.isAccepted()) {
            throw new RefusedException(line, reply);
        }
        return reply;
    }

    private Reply read(String command) throws IOException {
        boolean isValidate = command.startsWith("validate ");
        List<String> data = new ArrayList<>();
        while (true) {
            String line = output.line();
            List<String> words = Arrays.asList(line.split(" "));
            if (isEnd(line, words, isValidate)) {
                return new Reply(data, words.get(0).equals("ok"), List.copyOf(words.subList(1, words.size())));
            }
            data.add(line);
        }
    }

    /** Whether a line ends a reply. A line of `validate` begins with an id, which may be one of the two words, and has a feature's name then. */
    private static boolean isEnd(String line, List<String> words, boolean isValidate) {
        boolean isRefusal = words.get(0).equals("no") && (!isValidate || words.size() > 1 && Character.isDigit(words.get(1).charAt(0)));
        return isRefusal || words.get(0).equals("ok") && (!isValidate || line.equals("ok"));
    }

    private EndedException endOfInput() {
        try {
            input.close();
        } catch (IOException broken) {
            // The program has ended before, and its status tells of it.
        }
        return EndedException.of(waited(false), errorsRead(), false);
    }

    /**
     * The program has ended by itself, as its output has; if it hasn't within some seconds, it is ended. Only one that never answered can have found
     * the store in use.
     */
    private EndedException endOfOutput(IOException fault) {
        if (process.isAlive() && !isKilled && !(fault instanceof EOFException) && !isBroken(fault)) {
            return cutOff(fault);
        }
        int status = waited(true);
        return status == EndedException.CUT_OFF ? cutOff(fault) : EndedException.of(status, errorsRead(), !hasAnswered && isLocked());
    }

    private static boolean isBroken(IOException fault) {
        return "Broken pipe".equals(fault.getMessage()) || "Stream closed".equalsIgnoreCase(fault.getMessage());
    }

    private EndedException cutOff(Throwable cause) {
        process.destroyForcibly();
        waited(true);
        String sentence = "a call was cut off, and the program ended; what was sent is done whole or not at all";
        return new EndedException(EndedException.CUT_OFF, "", sentence, cause);
    }

    /** The status of the program once it has ended, which an interrupt doesn't hasten. */
    private int waited(boolean isBounded) {
        boolean isInterrupted = false;
        try {
            while (true) {
                try {
                    if (!isBounded) {
                        return process.waitFor();
                    }
                    return process.waitFor(SECONDS_TO_DIE, TimeUnit.SECONDS) ? process.exitValue() : EndedException.CUT_OFF;
                } catch (InterruptedException interrupted) {
                    isInterrupted = true;
                }
            }
        } finally {
            if (isInterrupted) {
                Thread.currentThread().interrupt();
            }
        }
    }

    private String errorsRead() {
        return errors.completeOnTimeout("", 1, TimeUnit.SECONDS).join();
    }

    private void readErrors() {
        String found = "";
        try (InputStream stream = process.getErrorStream()) {
            found = new String(stream.readAllBytes(), StandardCharsets.UTF_8).strip();
        } catch (IOException closed) {
            found = "";
        } finally {
            errors.complete(found);
        }
    }

    /** Whether another program has the lock of the file: it is tried by `flock` of util-linux, as Java has no such lock. */
    private boolean isLocked() {
        if (Files.notExists(folder.resolve(JOURNAL))) {
            return false;
        }
        try {
            Process tried = new ProcessBuilder("flock", "--shared", "--nonblock", "--conflict-exit-code", String.valueOf(LOCKED), JOURNAL, "true")
                    .directory(folder.toFile()).redirectErrorStream(true).start();
            tried.getOutputStream().close();
            tried.getInputStream().readAllBytes();
            return tried.waitFor() == LOCKED;
        } catch (IOException lacking) {
            return false;
        } catch (InterruptedException interrupted) {
            Thread.currentThread().interrupt();
            return false;
        }
    }
}
