package emfstore.client;

import java.io.IOException;
import java.nio.file.Files;
import java.nio.file.Path;
import java.util.List;
import org.eclipse.emf.common.util.EList;
import org.eclipse.emf.common.util.TreeIterator;
import org.eclipse.emf.ecore.EObject;
import org.eclipse.emf.ecore.resource.Resource;
import org.eclipse.emf.ecore.util.EcoreUtil;

/** What the tests share: the built program, a folder for stores, and the metamodel of all kinds. */
abstract class Fixture {
    static final int NOTHING_LOCAL = 23;

    final Path program;
    final Path folder;
    final String kinds;
    int stores;

    Fixture(Path program, Path folder, Path tests) {
        this.program = program;
        this.folder = folder;
        kinds = tests.resolve("kinds.ecore").toString();
    }

    /** A file beside the metamodel of all kinds. */
    String beside(String name) {
        return Path.of(kinds).resolveSibling(name).toString();
    }

    /** Sends the lines of a script, and gives the number of elements in its last block. */
    static int send(Store store, List<String> script) {
        int count = 0;
        for (int i = 0; i < script.size(); i++) {
            if (script.get(i).startsWith("import ")) {
                count = store.send(script.get(i), script.get(i + 1)).number(0);
                i += 2;
            } else {
                store.send(script.get(i));
            }
        }
        return count;
    }

    /** Commits, where anything is recorded. */
    static void commit(Recorder recorder, String message) {
        try {
            recorder.commit(message);
        } catch (RefusedException refusal) {
            check(refusal.reply().refusal() == NOTHING_LOCAL, "refused otherwise: " + refusal.getMessage());
        }
    }

    /** Checks that the edit is refused by that number, or for 0 before it is sent. */
    static void checkRefused(int number, Runnable edit) {
        try {
            edit.run();
        } catch (RefusedException refusal) {
            check(refusal.reply().refusal() == number, "refused otherwise: " + refusal.getMessage());
            return;
        } catch (IllegalArgumentException refusal) {
            check(number == 0, "refused otherwise: " + refusal.getMessage());
            return;
        }
        throw new AssertionError("not refused by " + number);
    }

    static EObject create(Profile profile, String owner, String name) {
        EObject created = EcoreUtil.create(profile.classNamed(owner));
        set(created, "name", name);
        return created;
    }

    static void set(EObject element, String feature, Object value) {
        element.eSet(element.eClass().getEStructuralFeature(feature), value);
    }

    static Object get(EObject element, String feature) {
        return element.eGet(element.eClass().getEStructuralFeature(feature));
    }

    @SuppressWarnings("unchecked")
    static EList<EObject> list(EObject element, String feature) {
        return (EList<EObject>) get(element, feature);
    }

    static void checkEqual(Resource first, Resource second, String where) {
        check(EcoreUtil.equals(ModelText.roots(first), ModelText.roots(second)), where + ": the models differ");
        TreeIterator<EObject> others = EcoreUtil.getAllContents(ModelText.roots(second));
        for (TreeIterator<EObject> all = EcoreUtil.getAllContents(ModelText.roots(first)); all.hasNext(); ) {
            String id = Ids.own(all.next());
            String other = Ids.own(others.next());
            check(id == null || id.equals(other), where + ": the id " + id + " is " + other);
        }
    }

    static Profile profile(String ecore) throws IOException {
        return new Profile(new Metamodels(List.of(ecore)).packages());
    }

    static void check(boolean holds, String otherwise) {
        if (!holds) {
            throw new AssertionError(otherwise);
        }
    }

    static void tell(String what) {
        System.out.println(what);
    }

    /** The program over a new store, with a metamodel. */
    Store start(Profile profile) throws IOException {
        return start(program, profile);
    }

    Store start(Path started, Profile profile) throws IOException {
        Path place = Files.createDirectory(folder.resolve("store" + ++stores));
        Store store = new Store(started, place);
        store.send("init", new MetamodelText(profile).text());
        return store;
    }
}
