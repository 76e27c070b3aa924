package emfstore.client;

import java.io.BufferedInputStream;
import java.io.ByteArrayInputStream;
import java.io.IOException;
import java.nio.file.Files;
import java.nio.file.Path;
import java.util.ArrayList;
import java.util.HashSet;
import java.util.List;
import java.util.Map;
import java.util.Set;
import org.eclipse.emf.ecore.EObject;
import org.eclipse.emf.ecore.resource.Resource;
import org.eclipse.emf.ecore.util.EcoreUtil;
import org.eclipse.emf.ecore.xmi.XMLResource;

/**
 * Makes a version of a store of each commit on the standard input, as operations recorded against the version before.
 *
 * <p>A commit is a line {@code commit AUTHOR MOMENT MESSAGE-BYTES MODEL-BYTES}, the message in one line, and the model's file. Before the first one, and
 * where the metamodel has grown, comes {@code metamodel} with the number of its files and then a line with the bytes and the bytes of each. Matching is by
 * {@code xmi:id}, or with {@code --by-path} by place. Each commit that is a version now is printed: its version, or {@code same} where nothing differs.
 */
public final class FollowCommits {

    private final Store store;
    private final boolean byPath;
    private Profile profile;
    private Metamodels metamodels;
    private Recorder recorder;
    private XMLResource live;

    private FollowCommits(Store store, boolean byPath) {
        this.store = store;
        this.byPath = byPath;
    }

    /** The last word is the store's folder. The status is 1 where a commit doesn't fit: then nothing of it is in the store. */
    public static void main(String[] words) {
        boolean byPath = words.length == 2 && words[0].equals("--by-path");
        try (Store store = new Store(Path.of(words[words.length - 1]))) {
            new FollowCommits(store, byPath).run(new Frames(new BufferedInputStream(System.in)));
        } catch (IOException | RuntimeException fault) {
            System.err.println(fault.getMessage() == null ? fault : fault.getMessage());
            System.exit(1);
        }
    }

    private void run(Frames input) throws IOException {
        for (String line = input.line(); line != null; line = input.line()) {
            String[] words = line.split(" ");
            if (words[0].equals("metamodel")) {
                takeMetamodel(input, Integer.parseInt(words[1]));
            } else {
                String message = input.text(Integer.parseInt(words[3]));
                follow(words[1], Long.parseLong(words[2]), message, input.bytes(Integer.parseInt(words[4])));
            }
            System.out.flush();
        }
    }

    /** Gives the store its metamodel, or the one that it grew to. */
    private void takeMetamodel(Frames input, int count) throws IOException {
        Path folder = Files.createTempDirectory("metamodel");
        List<String> files = new ArrayList<>();
        for (int number = 0; number < count; number++) {
            String name = input.line();
            Path file = folder.resolve(name);
            Files.write(file, input.bytes(Integer.parseInt(input.line())));
            files.add(file.toString());
        }
        metamodels = new Metamodels(files);
        profile = new Profile(metamodels.packages());
        String text = new MetamodelText(profile).text();
        if (store.ask("log").isAccepted()) {
            store.send("evolve", text);
        } else {
            store.send("init", text);
            store.send("upgrade");
        }
        open();
    }

    /** Records from the head of trunk on; a further metamodel has the workspace's model filled in anew. */
    private void open() {
        XMLResource resource = metamodels.create("live.xmi");
        if (recorder == null) {
            recorder = Recorder.checkout(store, profile, "trunk", resource);
        } else {
            int workspace = recorder.workspace().number();
            recorder.close();
            recorder = Recorder.open(store, profile, workspace, resource);
        }
        live = resource;
    }

    private void follow(String author, long moment, String message, byte[] file) throws IOException {
        XMLResource wanted = metamodels.create("commit.xmi");
        try {
            wanted.load(new ByteArrayInputStream(file), Map.of());
            check(wanted);
            if (byPath) {
                new Paths(live, wanted).name();
            }
            Alignment.align(live, wanted);
            checkEqual(wanted);
        } catch (IOException | RuntimeException fault) {
            if (recorder.workspace().changes().size() > 0) {
                recorder.workspace().discard();
            }
            throw new IOException(fault.getMessage() == null ? fault.toString() : fault.getMessage(), fault);
        } finally {
            wanted.unload();
            wanted.getResourceSet().getResources().remove(wanted);
        }
        boolean isSame = recorder.workspace().changes().isEmpty();
        System.out.println(isSame ? "same" : String.valueOf(recorder.signed(author, moment, message)));
    }

    private void check(XMLResource wanted) throws IOException {
        for (Resource.Diagnostic error : wanted.getErrors()) {
            throw new IOException("EMF can't read it: " + error.getMessage());
        }
        Set<String> ids = new HashSet<>();
        for (var all = wanted.getAllContents(); !byPath && all.hasNext(); ) {
            EObject element = all.next();
            String id = wanted.getID(element);
            if (id == null) {
                throw new IOException("an element of " + element.eClass().getName() + " has no xmi:id; --by-path takes elements by their places");
            }
            if (!ids.add(id)) {
                throw new IOException("two elements have the xmi:id " + id);
            }
        }
    }

    /** What was recorded leads to just this model, or the commit doesn't fit. */
    private void checkEqual(XMLResource wanted) throws IOException {
        if (!EcoreUtil.equals(List.copyOf(live.getContents()), List.copyOf(wanted.getContents()))) {
            throw new IOException("the store can't hold what differs: see docs/ECORE.md");
        }
    }
}
