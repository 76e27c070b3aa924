package emfstore.client;

import emfstore.client.Profile.Feature;
import emfstore.client.Profile.Kind;
import java.util.ArrayList;
import java.util.HashSet;
import java.util.LinkedHashSet;
import java.util.List;
import java.util.Set;
import org.eclipse.emf.common.util.EList;
import org.eclipse.emf.ecore.EObject;
import org.eclipse.emf.ecore.util.EcoreUtil;

/**
 * Takes the steps of other people's operations in a live resource. A step that stands by its rank in a list of others can't be taken here, as a
 * resource has no ranks. Then the whole model is to be shown.
 */
final class StepPlayer {
    private final Profile profile;
    private final Ids ids;
    private final Set<String> gone = new HashSet<>();
    private final Set<EObject> touched = new LinkedHashSet<>();
    private final List<EObject> removed = new ArrayList<>();

    StepPlayer(Profile profile, Ids ids) {
        this.profile = profile;
        this.ids = ids;
    }

    /** Takes steps in their turn, and says whether all could be taken. Where one couldn't, those before it are taken. */
    boolean play(List<Step> steps) {
        for (Step step : steps) {
            if (step instanceof Step.Deleted) {
                gone.add(step.element());
            }
        }
        try {
            return steps.stream().allMatch(this::take);
        } catch (RuntimeException refusedByModel) {
            // The model's own code refuses it: showing the whole model tells what it can't hold.
            return false;
        }
    }

    /** The elements whose references changed. */
    Set<EObject> touched() {
        return touched;
    }

    /** The elements that were deleted. They have their ids as yet. */
    List<EObject> removed() {
        return removed;
    }

    /** Takes a step, and says whether it could be taken. */
    private boolean take(Step step) {
        EObject element = ids.element(step.element());
        if (element == null) {
            return false;
        }
        if (step instanceof Step.Put single) {
            return put(element, feature(element, single.feature()), single.value());
        } else if (step instanceof Step.Deleted) {
            return delete(element);
        } else if (step instanceof Step.Linked linked) {
            return link(element, feature(element, linked.feature()), ids.element(linked.target()));
        } else if (step instanceof Step.Unlinked unlinked) {
            return unlink(element, feature(element, unlinked.feature()), ids.element(unlinked.target()));
        }
        return takeOfList(element, step);
    }

    /** A step of a many-valued attribute. An element that is deleted keeps its values. */
    private boolean takeOfList(EObject element, Step step) {
        if (gone.contains(step.element())) {
            return step instanceof Step.Removed;
        }
        if (step instanceof Step.Inserted inserted) {
            Feature feature = feature(element, inserted.feature());
            list(element, feature).add(inserted.index(), value(feature, inserted.value()));
        } else if (step instanceof Step.Removed removed) {
            list(element, feature(element, removed.feature())).remove(removed.index());
        } else if (step instanceof Step.Shifted shifted) {
            list(element, feature(element, shifted.feature())).move(shifted.to(), shifted.from());
        } else {
            return false;
        }
        return true;
    }

    private boolean put(EObject element, Feature feature, String value) {
        if (gone.contains(ids.id(element))) {
            return true;
        }
        if (value == null) {
            element.eUnset(feature.ecore());
        } else {
            element.eSet(feature.ecore(), value(feature, value));
        }
        if (element.eContainer() != null) {
            Maps.mend(profile, element.eContainer());
        }
        return true;
    }

    /** An element inside one that is deleted too stays there. */
    private boolean delete(EObject element) {
        EObject parent = element.eContainer();
        if (parent == null || !gone.contains(ids.id(parent))) {
            EcoreUtil.remove(element);
            if (element.eResource() != null) {
                // It was in the list of roots too.
                EcoreUtil.remove(element);
            }
        }
        removed.add(element);
        return true;
    }

    private boolean link(EObject element, Feature feature, EObject target) {
        boolean isPlain = feature.reference().getEOpposite() == null && !feature.isMany();
        if (target == null || !isPlain) {
            return false;
        }
        element.eSet(feature.ecore(), target);
        touched.add(element);
        return true;
    }

    private boolean unlink(EObject element, Feature feature, EObject target) {
        if (target == null || feature.reference().getEOpposite() != profile.opposite(feature.reference())) {
            return false;
        }
        if (feature.isMany()) {
            list(element, feature).remove(target);
        } else {
            element.eUnset(feature.ecore());
        }
        touched.add(element);
        touched.add(target);
        return true;
    }

    private Feature feature(EObject element, String name) {
        Feature found = profile.features(element.eClass()).get(name);
        if (found == null || found.kind() == Kind.SKIPPED) {
            throw new IllegalArgumentException("no feature " + name);
        }
        return found;
    }

    private static Object value(Feature feature, String json) {
        return Values.value(feature.attribute(), Json.read(json));
    }

    @SuppressWarnings("unchecked")
    private static EList<Object> list(EObject element, Feature feature) {
        return (EList<Object>) element.eGet(feature.ecore());
    }
}
