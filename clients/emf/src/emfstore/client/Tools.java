package emfstore.client;

import java.io.BufferedReader;
import java.io.IOException;
import java.io.InputStream;
import java.io.InputStreamReader;
import java.io.PrintStream;
import java.nio.charset.StandardCharsets;
import java.nio.file.Path;
import java.util.ArrayDeque;
import java.util.Deque;
import java.util.List;
import java.util.Map;
import org.eclipse.emf.ecore.xmi.XMLResource;

/** The three tools, by the first word. */
public final class Tools {
    private static final String USES = """
            ecore2script FILE.ecore..                       prints the block of init
            xmi2script [-w WS] MODEL FILE.ecore..           prints what brings a model into workspace WS, or 1
            xmi2script -s FOLDER [-w WS] MODEL FILE.ecore.. brings it there in the store of a folder, if no line is refused
            store2xmi FILE.ecore.. < REPLY                  prints the model that cat, show or checkout printed, as XMI""";

    private static final String XMI2SCRIPT = "xmi2script";

    private final InputStream in;
    private final PrintStream out;
    private final PrintStream err;

    Tools(InputStream in, PrintStream out, PrintStream err) {
        this.in = in;
        this.out = out;
        this.err = err;
    }

    /** Runs a tool. The status is 0, or 1 where it fails, or 2 where the words are of no use that it has. */
    public static void main(String[] words) {
        System.exit(new Tools(System.in, new PrintStream(System.out, false, StandardCharsets.UTF_8), System.err).status(List.of(words)));
    }

    int status(List<String> words) {
        try {
            return isUse(words) ? 0 : 2;
        } catch (IOException | RuntimeException fault) {
            err.println(words.get(0) + ": " + (fault.getMessage() == null ? fault : fault.getMessage()));
            return 1;
        } finally {
            out.flush();
        }
    }

    /** Runs the tool that the first word names, and says whether the words are a use of it. */
    private boolean isUse(List<String> words) throws IOException {
        String tool = words.isEmpty() ? "" : words.get(0);
        Deque<String> rest = new ArrayDeque<>(words.subList(Math.min(1, words.size()), words.size()));
        String folder = tool.equals(XMI2SCRIPT) ? option("-s", rest) : null;
        String workspace = tool.equals(XMI2SCRIPT) ? option("-w", rest) : null;
        List<String> files = List.copyOf(rest);
        if (tool.equals("ecore2script") && files.size() >= 1) {
            ecore2Script(files);
        } else if (tool.equals(XMI2SCRIPT) && files.size() >= 2) {
            xmi2Script(files, workspace == null ? 1 : Integer.parseInt(workspace), folder);
        } else if (tool.equals("store2xmi") && files.size() >= 1) {
            store2Xmi(files);
        } else {
            err.println(USES);
            return false;
        }
        return true;
    }

    /** Takes an option with its word from the beginning of the words, if it stands there. */
    private static String option(String name, Deque<String> words) {
        if (words.size() < 2 || !words.peek().equals(name)) {
            return null;
        }
        words.remove();
        return words.remove();
    }

    private void ecore2Script(List<String> files) throws IOException {
        Profile profile = new Profile(new Metamodels(files).packages());
        out.print("init\n" + new MetamodelText(profile).text() + ".\n");
        profile.remarks().forEach(err::println);
    }

    /** The first file is the model, the others are its metamodels. Without a folder of a store the script is printed. */
    private void xmi2Script(List<String> files, int workspace, String folder) throws IOException {
        Metamodels metamodels = new Metamodels(files.subList(1, files.size()));
        Xmi2Script tool = new Xmi2Script(new Profile(metamodels.packages()));
        List<String> script = tool.script(metamodels.load(files.get(0)).getContents(), workspace, Blocks.Limits.OF_PROGRAM);
        tool.remarks().forEach(err::println);
        if (folder == null) {
            script.forEach(it -> out.print(it + "\n"));
        } else {
            try (Store store = new Store(Path.of(folder))) {
                out.print(Xmi2Script.send(script, new Workspace(store, workspace)) + " elements\n");
            }
        }
    }

    private void store2Xmi(List<String> files) throws IOException {
        BufferedReader input = new BufferedReader(new InputStreamReader(in, StandardCharsets.UTF_8));
        String text = input.lines().filter(it -> it.equals("[]") || it.startsWith("[{") || it.startsWith("{")).reduce(null, (before, it) -> it);
        if (text == null) {
            throw new IOException("no model on the input");
        }
        Metamodels metamodels = new Metamodels(files);
        XMLResource model = metamodels.create("model.xmi");
        ModelFiller.fill(model, new Profile(metamodels.packages()), new Ids(), text);
        model.getWarnings().forEach(it -> err.println(it.getMessage()));
        if (!model.getErrors().isEmpty()) {
            throw new IOException(model.getErrors().get(0).getMessage());
        }
        model.save(out, Map.of());
    }
}
