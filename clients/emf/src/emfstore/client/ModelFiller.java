package emfstore.client;

import emfstore.client.Profile.Feature;
import emfstore.client.Profile.Kind;
import java.util.ArrayList;
import java.util.HashSet;
import java.util.IdentityHashMap;
import java.util.LinkedHashMap;
import java.util.List;
import java.util.Map;
import java.util.Set;
import org.eclipse.emf.common.util.ECollections;
import org.eclipse.emf.common.util.EList;
import org.eclipse.emf.common.util.TreeIterator;
import org.eclipse.emf.ecore.EClass;
import org.eclipse.emf.ecore.EObject;
import org.eclipse.emf.ecore.EReference;
import org.eclipse.emf.ecore.resource.Resource;
import org.eclipse.emf.ecore.util.EcoreUtil;
import org.eclipse.emf.ecore.xmi.XMLResource;

/**
 * Makes a resource the model of a text. An element that is there by its id stays the same object, and what is as it should be isn't touched. One that
 * stands elsewhere is moved there in one step. Targets outside the store are kept, after those inside.
 */
final class ModelFiller {
    /** An element of the text: the object for it, where it is to stand, and what the text has of it. */
    private record Element(EObject object, EObject parent, EReference containment, Map<?, ?> keys) {
        boolean isInPlace(Resource resource) {
            return object.eContainer() == parent && object.eContainingFeature() == containment && (parent != null || object.eResource() == resource);
        }
    }

    private static final Set<String> OWN_KEYS = Set.of("_id", "eClass");

    private final Profile profile;
    private final Ids ids;
    private final Resource resource;
    private final Map<String, Element> elements = new LinkedHashMap<>();
    private final Set<EObject> gone = new HashSet<>();
    private final Map<EObject, Set<EReference>> faulty = new IdentityHashMap<>();

    private ModelFiller(Profile profile, Ids ids, Resource resource) {
        this.profile = profile;
        this.ids = ids;
        this.resource = resource;
    }

    /**
     * Fills a resource with the model of a text as `show` prints it, and gives what tells of that text. What the resource can't hold, as where a
     * setter throws, is told among its errors; a key of a map that two entries have among its warnings.
     *
     * @param ids those of the elements in the resource, before and afterwards; where there are none, elements are known by their `xmi:id`
     * @throws IllegalArgumentException where the text is no model of the metamodel
     */
    static ModelFiller fill(Resource resource, Profile profile, Ids ids, String text) {
        ModelFiller filler = new ModelFiller(profile, ids, resource);
        if (ids.elements().isEmpty()) {
            filler.adopt();
        }
        List<?> roots = list(Json.read(text));
        roots.forEach(it -> filler.find((Map<?, ?>) it, null, null));
        resource.getErrors().removeIf(ModelFault.class::isInstance);
        resource.getWarnings().removeIf(ModelFault.class::isInstance);
        filler.take();
        // An entry of a map is found by its key, so that is set before the entry comes into the map.
        filler.setFeatures(Kind.ATTRIBUTE);
        filler.elements.values().forEach(filler::attach);
        filler.setList(resource.getContents(), filler.objects(roots));
        filler.setFeatures(Kind.CONTAINMENT);
        filler.setFeatures(Kind.REFERENCE);
        filler.mendMaps();
        if (resource instanceof XMLResource file) {
            filler.elements.forEach((id, it) -> file.setID(it.object(), id));
        }
        return filler;
    }

    /** The targets that a plain reference of an element has in the text. */
    List<EObject> targets(EObject element, EReference reference) {
        List<?> json = list(elements.get(ids.id(element)).keys().get(profile.feature(reference).name()));
        return json.stream().map(this::target).toList();
    }

    /** The references that the resource can't hold as the text has them. */
    Map<EObject, Set<EReference>> faulty() {
        return faulty;
    }

    private EObject target(Object json) {
        return elements.get(((Map<?, ?>) json).get("$ref")).object();
    }

    /** Takes the elements that are in the resource as known, by their `xmi:id` or a new one. */
    private void adopt() {
        for (TreeIterator<EObject> all = resource.getAllContents(); all.hasNext(); ) {
            EObject element = all.next();
            if (profile.features(element.eClass()) != null) {
                ids.name(element);
            }
        }
    }

    private void find(Map<?, ?> keys, EObject parent, EReference containment) {
        String id = (String) keys.get("_id");
        EClass owner = profile.classNamed(((String) keys.get("eClass")).replaceFirst(".*#//", ""));
        if (owner == null) {
            throw otherMetamodel("no class " + keys.get("eClass"));
        }
        EObject known = ids.element(id);
        EObject object = known != null && known.eClass() == owner ? known : EcoreUtil.create(owner);
        elements.put(id, new Element(object, parent, containment, keys));
        Map<String, Feature> features = profile.features(owner);
        for (Map.Entry<?, ?> key : keys.entrySet()) {
            Feature feature = features.get(key.getKey());
            if (feature == null && !OWN_KEYS.contains(key.getKey())) {
                throw otherMetamodel("no feature " + profile.name(owner) + "." + key.getKey());
            }
            if (feature != null && feature.kind() == Kind.CONTAINMENT) {
                list(key.getValue()).forEach(it -> find((Map<?, ?>) it, object, feature.reference()));
            }
        }
    }

    private static IllegalArgumentException otherMetamodel(String what) {
        return new IllegalArgumentException("the store has another metamodel than the .ecore files: " + what);
    }

    /** Takes the ids of the text, and drops those of elements that it hasn't. */
    private void take() {
        for (EObject object : List.copyOf(ids.elements())) {
            Element wanted = elements.get(ids.id(object));
            if (wanted == null || wanted.object() != object) {
                ids.remove(object);
                gone.add(object);
            }
        }
        elements.forEach((id, it) -> ids.put(it.object(), id));
    }

    /** Brings an element into its parent, whose own place and those above it are right by then. So no element comes into one inside it. */
    @SuppressWarnings("unchecked")
    private void attach(Element element) {
        if (element.isInPlace(resource)) {
            return;
        }
        if (element.parent() == null) {
            EcoreUtil.remove(element.object());
            resource.getContents().add(element.object());
        } else if (element.containment().isMany()) {
            trying(element.parent(), element.containment(), () ->
                    ((EList<EObject>) element.parent().eGet(element.containment())).add(element.object()));
        } else {
            trying(element.parent(), element.containment(), () -> element.parent().eSet(element.containment(), element.object()));
        }
    }

    private void setFeatures(Kind kind) {
        for (Element element : elements.values()) {
            for (Feature feature : profile.features(element.object().eClass()).values()) {
                if (feature.kind() == kind) {
                    Object json = element.keys().get(feature.name());
                    trying(element.object(), feature.ecore() instanceof EReference it ? it : null,
                            () -> setFeature(element.object(), feature, wanted(feature, list(json))));
                }
            }
        }
    }

    /** Makes a change, and where the model's own code throws, tells it among the errors. */
    private void trying(EObject element, EReference reference, Runnable change) {
        try {
            change.run();
        } catch (RuntimeException fault) {
            faulty.computeIfAbsent(element, none -> new HashSet<>()).add(reference);
            String where = element.eClass().getName() + " " + ids.id(element);
            resource.getErrors().add(new ModelFault(where + " isn't as the store has it: " + fault, String.valueOf(resource.getURI())));
        }
    }

    private List<?> wanted(Feature feature, List<?> json) {
        return switch (feature.kind()) {
            case ATTRIBUTE -> json.stream().map(it -> Values.value(feature.attribute(), it)).toList();
            case CONTAINMENT -> objects(json);
            default -> json.stream().map(this::target).toList();
        };
    }

    @SuppressWarnings("unchecked")
    private void setFeature(EObject object, Feature feature, List<?> wanted) {
        List<Object> all = new ArrayList<>(wanted);
        List<?> held = object.eIsSet(feature.ecore()) ? ModelText.list(object, feature) : List.of();
        boolean isKept = held.equals(wanted);
        if (feature.kind() == Kind.REFERENCE && (feature.isMany() || wanted.isEmpty())) {
            List<?> outside = held.stream().distinct().filter(it -> ids.id((EObject) it) == null && !gone.contains(it)).toList();
            all.addAll(outside);
            isKept = held.size() == all.size() && held.stream().filter(it -> !outside.contains(it)).toList().equals(wanted);
        }
        if (isKept) {
            return;
        }
        if (all.isEmpty()) {
            object.eUnset(feature.ecore());
        } else if (feature.isMany()) {
            setList((EList<Object>) object.eGet(feature.ecore()), all);
        } else {
            object.eSet(feature.ecore(), all.get(0));
        }
    }

    private void mendMaps() {
        for (Element element : elements.values()) {
            for (Object key : Maps.mend(profile, element.object())) {
                String where = element.object().eClass().getName() + " " + ids.id(element.object());
                resource.getWarnings().add(new ModelFault(where + ": two entries of a map have the key " + key, String.valueOf(resource.getURI())));
            }
        }
    }

    private <T> void setList(EList<T> held, List<? extends T> wanted) {
        if (!held.equals(wanted)) {
            ECollections.setEList(held, wanted);
        }
    }

    private List<EObject> objects(List<?> json) {
        return json.stream().map(it -> elements.get(((Map<?, ?>) it).get("_id")).object()).toList();
    }

    private static List<?> list(Object json) {
        return json instanceof List<?> many ? many : json == null ? List.of() : List.of(json);
    }
}
