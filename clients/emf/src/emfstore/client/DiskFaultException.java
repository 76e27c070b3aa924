package emfstore.client;

/** The store's file can't be opened, read or written, and no other program has it. The command on its way is kept whole or not at all. */
public final class DiskFaultException extends EndedException {
    private static final long serialVersionUID = 1;

    DiskFaultException(int status, String words) {
        super(status, words, "the store's file can't be used: its disk is full or failed, it is no regular file, or it may not be written", null);
    }
}
