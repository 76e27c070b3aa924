package emfstore.client;

import java.io.IOException;
import java.nio.file.Files;
import java.nio.file.Path;
import java.util.ArrayList;
import java.util.List;
import org.eclipse.emf.common.util.EList;
import org.eclipse.emf.ecore.EObject;
import org.eclipse.emf.ecore.util.EcoreUtil;
import org.eclipse.emf.ecore.xmi.XMLResource;

/** What the Recorder sends for one change of each kind: the change in words, and below it the lines. */
final class Notifications {
    private final Profile profile;
    private final XMLResource live;
    private final Path sent;
    private final List<String> told = new ArrayList<>();
    private int read;

    /** A recorded resource, and the file in which the lines that were sent stand. */
    Notifications(Profile profile, XMLResource live, Path sent) throws IOException {
        this.profile = profile;
        this.live = live;
        this.sent = sent;
        read = Files.readAllLines(sent).size();
    }

    /** Makes all changes, and gives what was sent for each. */
    List<String> lines() throws IOException {
        EObject a = create("Node", "a");
        EObject b = create("Node", "b");
        EObject c = create("Node", "c");
        EObject v = create("Values", "v");
        ofRoots(a, b, c, v);
        ofAttributes(a, v);
        ofReferences(a, b, c);
        ofContainments(a, b, v);
        return told;
    }

    private void ofRoots(EObject a, EObject b, EObject c, EObject v) throws IOException {
        tell("a, the first root", () -> live.getContents().add(a));
        tell("b and v after it", () -> live.getContents().addAll(List.of(b, v)));
        tell("c before all, with a name and a link", () -> {
            set(c, "name", "c");
            set(c, "friend", a);
            live.getContents().add(0, c);
        });
        tell("c to the end", () -> live.getContents().move(3, c));
    }

    private void ofAttributes(EObject a, EObject v) throws IOException {
        tell("a value", () -> set(a, "name", "x"));
        tell("none", () -> a.eUnset(a.eClass().getEStructuralFeature("name")));
        tell("the default", () -> set(v, "flag", true));
        tell("another value than the default", () -> set(v, "flag", false));
        tell("the default again", () -> set(v, "flag", true));
        tell("a value in a list", () -> list(v, "tags").add("p"));
        tell("two more", () -> list(v, "tags").addAll(0, List.of("q", "r")));
        tell("the last to the front", () -> list(v, "tags").move(0, 2));
        tell("another one in its place", () -> list(v, "tags").set(0, "s"));
        tell("the first taken out", () -> list(v, "tags").remove(0));
        tell("all taken out", () -> list(v, "tags").clear());
    }

    private void ofReferences(EObject a, EObject b, EObject c) throws IOException {
        tell("a target", () -> set(a, "friend", b));
        tell("another one", () -> set(a, "friend", c));
        tell("none", () -> set(a, "friend", null));
        tell("three targets", () -> list(a, "friends").addAll(List.of(a, b, c)));
        tell("the first to the end", () -> list(a, "friends").move(2, 0));
        tell("one taken out", () -> list(a, "friends").remove(b));
        tell("one end of a pair of opposites", () -> set(a, "next", b));
        tell("its other end given to another element", () -> set(b, "before", c));
        tell("an end that holds many", () -> list(a, "members").add(b));
        tell("the element in another group", () -> list(c, "members").add(b));
        tell("one target of many to many, before another", () -> {
            list(a, "sees").add(c);
            list(a, "sees").add(0, b);
        });
        tell("a reference that is its own opposite", () -> set(a, "spouse", b));
    }

    private void ofContainments(EObject a, EObject b, EObject v) throws IOException {
        tell("b out of the roots and into a", () -> {
            live.getContents().remove(b);
            list(a, "nodes").add(b);
        });
        EObject d = create("Node", "d");
        tell("d before it, with a child", () -> {
            list(d, "values").add(create("Values", "e"));
            list(a, "nodes").add(0, d);
        });
        tell("b before d", () -> list(a, "nodes").move(0, 1));
        tell("d into b", () -> list(b, "nodes").add(d));
        tell("f in the place of b, which goes with d in it", () -> list(a, "nodes").set(0, create("Node", "f")));
        tell("v into a, where one stands at most", () -> set(a, "one", v));
        tell("out of the list of roots, where it still was", () -> live.getContents().remove(v));
        tell("another one there", () -> set(a, "one", create("Values", "w")));
        tell("a deleted, with all that refers to it", () -> EcoreUtil.delete(a, true));
    }

    private void tell(String what, Runnable change) throws IOException {
        change.run();
        List<String> all = Files.readAllLines(sent);
        told.add(what);
        all.subList(read, all.size()).forEach(it -> told.add("    " + it));
        read = all.size();
    }

    private EObject create(String owner, String id) {
        EObject created = EcoreUtil.create(profile.classNamed(owner));
        live.setID(created, id);
        return created;
    }

    private static void set(EObject element, String feature, Object value) {
        element.eSet(element.eClass().getEStructuralFeature(feature), value);
    }

    @SuppressWarnings("unchecked")
    private static EList<Object> list(EObject element, String feature) {
        return (EList<Object>) element.eGet(element.eClass().getEStructuralFeature(feature));
    }
}
