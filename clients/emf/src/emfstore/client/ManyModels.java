package emfstore.client;

import java.io.BufferedInputStream;
import java.io.BufferedOutputStream;
import java.io.ByteArrayOutputStream;
import java.io.IOException;
import java.io.OutputStream;
import java.nio.charset.StandardCharsets;
import java.util.List;
import java.util.Map;
import org.eclipse.emf.ecore.xmi.XMLResource;

/** Prints models of the store as XMI, one after the other in one process: each comes after a line with the number of its bytes, and goes so. */
public final class ManyModels {
    private ManyModels() { }

    /** The words are metamodels. The status is 1 where a model can't be read. */
    public static void main(String[] files) {
        try {
            Profile profile = new Profile(new Metamodels(List.of(files)).packages());
            Frames input = new Frames(new BufferedInputStream(System.in));
            OutputStream output = new BufferedOutputStream(System.out);
            for (String line = input.line(); line != null; line = input.line()) {
                byte[] xmi = xmi(profile, input.text(Integer.parseInt(line)));
                output.write((xmi.length + "\n").getBytes(StandardCharsets.US_ASCII));
                output.write(xmi);
                output.flush();
            }
        } catch (IOException | RuntimeException fault) {
            System.err.println(fault.getMessage() == null ? fault : fault.getMessage());
            System.exit(1);
        }
    }

    private static byte[] xmi(Profile profile, String text) throws IOException {
        XMLResource model = new Metamodels(List.of()).create("model.xmi");
        ModelFiller.fill(model, profile, new Ids(), text);
        if (!model.getErrors().isEmpty()) {
            throw new IOException(model.getErrors().get(0).getMessage());
        }
        ByteArrayOutputStream written = new ByteArrayOutputStream();
        model.save(written, Map.of());
        return written.toByteArray();
    }
}
