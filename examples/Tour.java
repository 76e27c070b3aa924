import emfstore.client.Choice;
import emfstore.client.InUseException;
import emfstore.client.Metamodels;
import emfstore.client.Operation;
import emfstore.client.Profile;
import emfstore.client.Recorder;
import emfstore.client.RefusedException;
import emfstore.client.Store;
import emfstore.client.StoreResource;
import emfstore.client.StoreResourceFactory;
import emfstore.client.Workspace;
import java.io.IOException;
import java.nio.file.Files;
import java.nio.file.Path;
import java.util.List;
import java.util.Map;
import org.eclipse.emf.ecore.EObject;
import org.eclipse.emf.ecore.EStructuralFeature;
import org.eclipse.emf.ecore.resource.Resource;
import org.eclipse.emf.ecore.resource.ResourceSet;
import org.eclipse.emf.ecore.resource.impl.ResourceSetImpl;
import org.eclipse.emf.ecore.util.EcoreUtil;
import org.eclipse.emf.ecore.xmi.XMLResource;

/** Each part of the client, once. The page of clients/emf shows it, and a check runs it. */
public final class Tour {
    private static final Path FOLDER = Path.of("tour");

    private final Metamodels metamodels = new Metamodels(List.of("boxes.ecore"));
    private final Profile profile = new Profile(metamodels.packages());

    private Tour() throws IOException {
    }

    public static void main(String[] words) throws IOException {
        Files.createDirectory(FOLDER);
        Tour tour = new Tour();
        tour.commands();
        tour.liveResource();
        tour.workspace();
        tour.conflict();
        tour.takenUp();
        tour.byUri();
    }

    private void commands() throws IOException {
        try (Store store = new Store(FOLDER)) {
            store.send("init", profile.metamodel());
            System.out.println(store.send("log").data());
            store.send("tag v0 7");
        } catch (RefusedException refused) {
            System.out.println(refused.getMessage());
        }
    }

    private void liveResource() throws IOException {
        XMLResource boxes = metamodels.create("boxes.xmi");
        try (Store store = new Store(FOLDER); Recorder ann = Recorder.checkout(store, profile, "trunk", boxes)) {
            EObject box = EcoreUtil.create(profile.classNamed("Box"));
            boxes.setID(box, "box");
            boxes.getContents().add(box);                              // create 1 Box / box
            ann.composite("name_and_width", () -> {                    // one operation
                set(box, "label", "small");
                set(box, "width", 1.5);
            });
            System.out.println("version " + ann.commit("a small box"));
        }
    }

    private void workspace() throws IOException {
        try (Store store = new Store(FOLDER)) {
            Workspace workspace = Workspace.checkout(store, "trunk");
            store.send("set " + workspace.number() + " box label \"large\"");
            for (Operation operation : workspace.changes()) {
                System.out.println(operation.kind() + " " + operation.steps());
            }
            workspace.undo();
            System.out.println(workspace.number() + " " + workspace.show());
            workspace.branch("wide");
            workspace.drop();
        }
    }

    private void conflict() throws IOException {
        XMLResource boxes = metamodels.create("ben.xmi");
        try (Store store = new Store(FOLDER); Recorder ben = Recorder.checkout(store, profile, "trunk", boxes)) {
            Workspace ann = Workspace.checkout(store, "trunk");
            store.send("set " + ann.number() + " box label \"tiny\"");
            ann.commit("tiny");
            set(boxes.getContents().get(0), "label", "medium");
            ben.update(conflict -> {
                conflict.changes().forEach(System.out::println);
                return Choice.MINE;
            });
            System.out.println("version " + ben.commit("medium"));
        }
    }

    private void takenUp() throws IOException {
        XMLResource boxes = metamodels.create("again.xmi");
        try (Store store = new Store(FOLDER); Recorder ann = Recorder.open(store, profile, 1, boxes)) {
            ann.update(Choice.THEIRS);
            System.out.println(boxes.getContents().get(0).eGet(feature(boxes.getContents().get(0), "label")));
            try (Store second = new Store(FOLDER)) {
                second.send("log");
            } catch (InUseException inUse) {
                System.out.println(inUse.getMessage());
            }
        }
    }

    private void byUri() throws IOException {
        try (StoreResourceFactory factory = new StoreResourceFactory()) {
            ResourceSet set = new ResourceSetImpl();
            factory.register(set);
            Resource boxes = set.createResource(StoreResourceFactory.uri(FOLDER, 1));
            boxes.load(Map.of(StoreResource.PACKAGES, metamodels.packages()));
            set(boxes.getContents().get(0), "width", 2.5);
            boxes.save(Map.of(StoreResource.MESSAGE, "wider"));
        }
        try (Store store = new Store(FOLDER)) {
            store.log().forEach(it -> System.out.println(it.branch() + " " + it.number() + " '" + it.message() + "'"));
        }
    }

    private static void set(EObject element, String feature, Object value) {
        element.eSet(feature(element, feature), value);
    }

    private static EStructuralFeature feature(EObject element, String name) {
        return element.eClass().getEStructuralFeature(name);
    }
}
