package emfstore.client;

/** A command was refused, and what it was to change is as before. */
public final class RefusedException extends RuntimeException {
    private static final long serialVersionUID = 1;

    private final transient Reply reply;

    RefusedException(String line, Reply reply) {
        super(String.join(" ", reply.words()) + ", of: " + (line.length() > 200 ? line.substring(0, 200) + ".." : line));
        this.reply = reply;
    }

    /** The reply, with the number, name and fields of the refusal. */
    public Reply reply() {
        return reply;
    }
}
