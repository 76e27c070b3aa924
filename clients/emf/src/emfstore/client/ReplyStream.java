package emfstore.client;

import java.io.ByteArrayOutputStream;
import java.io.EOFException;
import java.io.IOException;
import java.io.InputStream;
import java.nio.charset.StandardCharsets;

/** The lines that the program prints. A line ends at its line feed; what is cut off before that is none. */
final class ReplyStream {
    private static final int BYTES_AT_ONCE = 1 << 16;

    private final InputStream input;
    private final byte[] buffer = new byte[BYTES_AT_ONCE];
    private int at;
    private int end;

    ReplyStream(InputStream input) {
        this.input = input;
    }

    /**
     * The next line, without its line feed.
     *
     * @throws EOFException where the output ends before one
     */
    String line() throws IOException {
        ByteArrayOutputStream line = new ByteArrayOutputStream();
        while (true) {
            if (at == end) {
                fill();
            }
            int feed = at;
            while (feed < end && buffer[feed] != '\n') {
                feed++;
            }
            line.write(buffer, at, feed - at);
            at = Math.min(feed + 1, end);
            if (feed < end) {
                return line.toString(StandardCharsets.UTF_8);
            }
        }
    }

    private void fill() throws IOException {
        at = 0;
        end = 0;
        end = Math.max(input.read(buffer), 0);
        if (end == 0) {
            throw new EOFException("the output has ended");
        }
    }
}
