package emfstore.client;

import java.io.EOFException;
import java.io.IOException;
import java.io.InputStream;
import java.nio.charset.StandardCharsets;

/** Lines, and byte strings after a line that has their length, read one after the other. */
final class Frames {
    private final InputStream in;

    Frames(InputStream in) {
        this.in = in;
    }

    /** The next line without its line feed, or null at the end. */
    String line() throws IOException {
        StringBuilder line = new StringBuilder();
        int next = in.read();
        if (next < 0) {
            return null;
        }
        for (; next != '\n'; next = in.read()) {
            if (next < 0) {
                throw new EOFException("the input ends within a line");
            }
            line.append((char) next);
        }
        return line.toString();
    }

    /** So many bytes. */
    byte[] bytes(int count) throws IOException {
        byte[] found = in.readNBytes(count);
        if (found.length < count) {
            throw new EOFException("the input ends within " + count + " bytes");
        }
        return found;
    }

    /** So many bytes, as text. */
    String text(int count) throws IOException {
        return new String(bytes(count), StandardCharsets.UTF_8);
    }
}
