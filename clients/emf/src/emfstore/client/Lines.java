package emfstore.client;

import emfstore.client.Profile.Feature;
import org.eclipse.emf.ecore.EObject;
import org.eclipse.emf.ecore.EReference;
import org.eclipse.emf.ecore.EStructuralFeature;

/** The lines of one workspace's commands. */
final class Lines {
    /** A place in a list after all others. */
    static final int END = -1;

    private final int workspace;
    private final Profile profile;
    private final Ids ids;

    Lines(int workspace, Profile profile, Ids ids) {
        this.workspace = workspace;
        this.profile = profile;
        this.ids = ids;
    }

    /** A command of the workspace that names nothing of the model, as `commit` or `changes`. */
    String command(String name, String... words) {
        return name + " " + workspace + (words.length == 0 ? "" : " " + String.join(" ", words));
    }

    String create(EObject element, EObject parent, EReference containment) {
        return command("create", profile.name(element.eClass()), place(parent, containment), id(element));
    }

    String move(EObject element, EObject parent, EReference containment, int index) {
        return command("move", id(element), place(parent, containment)) + (index == END ? "" : " " + index);
    }

    String delete(EObject element) {
        return command("delete", id(element));
    }

    String set(EObject element, Feature feature, Object value) {
        return at("set", element, feature.ecore()) + " " + Values.json(feature.attribute(), value);
    }

    String set(EObject element, EReference reference, EObject target) {
        return at("set", element, reference) + " " + Json.quote(id(target));
    }

    String unset(EObject element, EStructuralFeature feature) {
        return at("unset", element, feature);
    }

    String add(EObject element, Feature feature, int index, Object value) {
        return at("add", element, feature.ecore()) + " " + (index == END ? "end" : index) + " " + Values.json(feature.attribute(), value);
    }

    String remove(EObject element, Feature feature, int index) {
        return at("remove", element, feature.ecore()) + " " + index;
    }

    String shift(EObject element, Feature feature, int from, int to) {
        return at("shift", element, feature.ecore()) + " " + from + " " + to;
    }

    String link(EObject element, EReference reference, EObject target, int index) {
        return at("link", element, reference) + " " + id(target) + (index == END ? "" : " " + index);
    }

    String unlink(EObject element, EReference reference, EObject target) {
        return at("unlink", element, reference) + " " + id(target);
    }

    String reorder(EObject element, EReference reference, EObject target, int index) {
        return at("reorder", element, reference) + " " + id(target) + " " + index;
    }

    /** The id of an element that must have one by now. */
    private String id(EObject element) {
        String found = ids.id(element);
        if (found == null) {
            throw new IllegalStateException("an element without an id: " + element);
        }
        return found;
    }

    private String at(String command, EObject element, EStructuralFeature feature) {
        return command(command, id(element), profile.feature(feature).name());
    }

    private String place(EObject parent, EReference containment) {
        return parent == null ? "/" : id(parent) + " " + profile.feature(containment).name();
    }
}
