package emfstore.client;

/** Another program has the store. Nothing is wrong with it: close the other one, or try again later. */
public final class InUseException extends EndedException {
    private static final long serialVersionUID = 1;

    InUseException(int status, String words) {
        super(status, words, "the store is in use by another program", null);
    }
}
