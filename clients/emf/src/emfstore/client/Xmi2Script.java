package emfstore.client;

import emfstore.client.Profile.Feature;
import emfstore.client.Profile.Kind;
import java.io.IOException;
import java.util.ArrayList;
import java.util.HashSet;
import java.util.LinkedHashMap;
import java.util.List;
import java.util.Map;
import java.util.Set;
import org.eclipse.emf.ecore.EObject;
import org.eclipse.emf.ecore.EcorePackage;
import org.eclipse.emf.ecore.util.EcoreUtil;

/** A model as the script that brings it into a workspace. What isn't carried is told, a line for each kind. */
final class Xmi2Script {
    private final Profile profile;
    private final Ids ids = new Ids();
    private final List<EObject> elements = new ArrayList<>();
    private final Map<String, Integer> remarks = new LinkedHashMap<>();

    Xmi2Script(Profile profile) {
        this.profile = profile;
    }

    /**
     * The lines of the script.
     *
     * @throws IOException where the metamodel hasn't an element's class, or an element is larger than a block without what it contains
     */
    List<String> script(List<EObject> roots, int workspace, Blocks.Limits limits) throws IOException {
        for (EObject root : roots) {
            walk(root);
        }
        elements.forEach(this::nameOwn);
        Set<EObject> inside = new HashSet<>(elements);
        for (EObject element : elements) {
            profile.features(element.eClass()).values().forEach(it -> look(element, it, inside));
        }
        try {
            return new Blocks(profile, ids, new Lines(workspace, profile, ids), limits).script(roots);
        } catch (IllegalArgumentException tooLarge) {
            throw new IOException(tooLarge.getMessage(), tooLarge);
        }
    }

    /**
     * Sends a script to a workspace in which nothing is recorded, and gives the number of elements. Where a line is refused nothing is recorded then.
     *
     * @throws RefusedException of the first line that is refused
     * @throws IllegalStateException where something is recorded
     */
    static int send(List<String> script, Workspace workspace) {
        if (!workspace.changes().isEmpty()) {
            throw new IllegalStateException("workspace " + workspace.number() + " has something recorded: commit or discard it before");
        }
        int count = 0;
        try {
            for (int i = 0; i < script.size(); i++) {
                boolean isBlock = i + 1 < script.size() && script.get(i).startsWith("import ");
                Reply reply = isBlock ? workspace.store().send(script.get(i), script.get(i + 1)) : workspace.store().send(script.get(i));
                count += isBlock ? reply.number(0) : 0;
                i += isBlock ? 2 : 0;
            }
            return count;
        } catch (RefusedException refused) {
            workspace.discard();
            throw refused;
        }
    }

    /** What isn't carried, with how often it comes. */
    List<String> remarks() {
        return remarks.entrySet().stream().map(it -> it.getKey() + (it.getValue() == 1 ? "" : " (" + it.getValue() + " times)")).toList();
    }

    private void walk(EObject element) throws IOException {
        if (profile.features(element.eClass()) == null) {
            throw new IOException("no class of the metamodel: " + Reach.path(element.eClass()));
        }
        elements.add(element);
        for (EObject child : ModelText.children(profile, element)) {
            walk(child);
        }
    }

    private void nameOwn(EObject element) {
        String own = Ids.own(element);
        if (Ids.isId(own) && ids.element(own) == null) {
            ids.put(element, own);
        } else if (Ids.isId(own)) {
            remark("an id that an earlier element has is replaced");
        } else if (own != null) {
            remark("an id that the program doesn't take is replaced");
        }
    }

    private void look(EObject element, Feature feature, Set<EObject> inside) {
        String where = Reach.path(feature.ecore());
        if (feature.kind() == Kind.REFERENCE) {
            List<EObject> targets = ModelText.targets(element, feature.reference());
            targets.stream().filter(it -> inside.contains(it) && ids.id(it) == null).forEach(it -> ids.put(it, EcoreUtil.generateUUID()));
            targets.stream().filter(it -> !inside.contains(it)).forEach(it -> remark(where + ": a target of another document is left out"));
            if (element.eIsSet(feature.ecore()) && ModelText.list(element, feature).size() > targets.size()) {
                remark(where + ": a target that comes twice is left out");
            }
        } else if (feature.ecore().getEType() == EcorePackage.Literals.EFEATURE_MAP_ENTRY && element.eIsSet(feature.ecore())) {
            remark(where + ": the entries of a feature map are left out");
        } else if (feature.ecore().isUnsettable() && element.eIsSet(feature.ecore()) && isDefault(element, feature)) {
            remark(where + ": it is set to its default, which counts as not set");
        }
    }

    private static boolean isDefault(EObject element, Feature feature) {
        Object held = element.eGet(feature.ecore());
        return feature.isMany() ? ((List<?>) held).isEmpty() : held == null || held.equals(feature.ecore().getDefaultValue());
    }

    private void remark(String what) {
        remarks.merge(what, 1, Integer::sum);
    }
}
