package emfstore.client;

import java.util.ArrayDeque;
import java.util.Collection;
import java.util.Deque;
import java.util.HashSet;
import java.util.LinkedHashSet;
import java.util.List;
import java.util.Set;
import org.eclipse.emf.ecore.EClass;
import org.eclipse.emf.ecore.EClassifier;
import org.eclipse.emf.ecore.EDataType;
import org.eclipse.emf.ecore.EEnum;
import org.eclipse.emf.ecore.EGenericType;
import org.eclipse.emf.ecore.ENamedElement;
import org.eclipse.emf.ecore.EPackage;
import org.eclipse.emf.ecore.EReference;
import org.eclipse.emf.ecore.EStructuralFeature;
import org.eclipse.emf.ecore.EcorePackage;
import org.eclipse.emf.ecore.InternalEObject;
import org.eclipse.emf.ecore.util.EcoreUtil;

/**
 * The classifiers of packages and all that these reach: a package of another document comes whole, and of Ecore what is named. On the way it tells
 * what the program hasn't.
 */
final class Reach {
    private final Set<EClassifier> found = new LinkedHashSet<>();
    private final Deque<EClass> open = new ArrayDeque<>();
    private final Set<EDataType> told = new HashSet<>();
    private final List<String> remarks;

    Reach(List<EPackage> packages, List<String> remarks) {
        this.remarks = remarks;
        packages.forEach(this::addPackage);
        while (!open.isEmpty()) {
            walk(open.remove());
        }
    }

    Collection<EClassifier> classifiers() {
        return found;
    }

    /** The name of a classifier or feature, with those that it stands in. */
    static String path(ENamedElement element) {
        return element.eContainer() instanceof ENamedElement around ? path(around) + "." + element.getName() : String.valueOf(element.getName());
    }

    private void addPackage(EPackage added) {
        if (added.getESuperPackage() != null) {
            remark(added, "a package inside the package: its classifiers are the outer one's");
        }
        added.getEClassifiers().forEach(this::add);
        added.getESubpackages().forEach(this::addPackage);
    }

    private void add(EClassifier classifier) {
        if (classifier instanceof EDataType type && Values.isPlain(type) || !found.add(classifier)) {
            return;
        }
        if (!classifier.getETypeParameters().isEmpty()) {
            remark(classifier, "type parameters: their bounds stand for them");
        }
        if (classifier instanceof EClass added) {
            open.add(added);
        }
    }

    /** Takes a type along, with its package. Where it can't be found nothing is taken. */
    private void need(ENamedElement user, EClassifier type) {
        if (type.eIsProxy()) {
            tellMissing(user, type);
        } else if (!found.contains(type) && type instanceof EClass && !EcorePackage.eNS_URI.equals(type.getEPackage().getNsURI())) {
            EPackage whole = (EPackage) EcoreUtil.getRootContainer(type);
            remark(whole, "a package of another document: its classifiers come along");
            addPackage(whole);
        } else {
            if (type == EcorePackage.Literals.EOBJECT && !found.contains(type)) {
                remark(type, "a class of that name stands above all others");
            }
            add(type);
        }
    }

    private void tellMissing(ENamedElement user, EClassifier type) {
        remark(user, "another document isn't found: " + ((InternalEObject) type).eProxyURI().lastSegment());
    }

    private void walk(EClass owner) {
        if (owner.getEGenericSuperTypes().stream().anyMatch(it -> !it.getETypeArguments().isEmpty())) {
            remark(owner, "a generic supertype: its class stands for it");
        }
        owner.getESuperTypes().forEach(it -> need(owner, it));
        for (EStructuralFeature feature : owner.getEStructuralFeatures()) {
            tell(feature);
            if (Profile.isStored(feature)) {
                need(feature, feature.getEType());
                tellType(feature.getEType());
            }
        }
    }

    private void tell(EStructuralFeature feature) {
        if (feature.isTransient()) {
            return;
        }
        EGenericType generic = feature.getEGenericType();
        if (feature.getEType() == null) {
            remark(feature, "it has no type, and holds nothing here");
        } else if (feature.getEType().eIsProxy()) {
            tellMissing(feature, feature.getEType());
        } else if (feature.getEType() == EcorePackage.Literals.EFEATURE_MAP_ENTRY) {
            remark(feature, "a feature map: its entries aren't carried");
        } else if (feature.getEType() instanceof EDataType type && !type.isSerializable()) {
            remark(feature, "its values have no text, and aren't carried");
        } else if (!feature.isMany() && feature.getUpperBound() != 1) {
            remark(feature, "its upper bound is " + feature.getUpperBound() + ", and it holds nothing here");
        } else if (generic.getETypeParameter() != null || !generic.getETypeArguments().isEmpty()) {
            remark(feature, "a generic type: " + feature.getEType().getName() + " stands for it");
        }
        if (feature.getDefaultValueLiteral() != null && feature.getDefaultValue() == null && Profile.isStored(feature)) {
            remark(feature, "its default is no value of its type: here it has that of the type");
        }
        if (feature.isUnsettable() && Profile.isStored(feature)) {
            remark(feature, "unsettable: what is set to its default counts as not set");
        }
        if (feature instanceof EReference reference && Profile.isStored(feature)) {
            tellReference(reference);
        }
    }

    private void tellType(EClassifier type) {
        boolean isEnum = type instanceof EEnum listed && !listed.getELiterals().isEmpty();
        if (type instanceof EDataType values && !isEnum && !Values.isPlain(values) && told.add(values)) {
            remark(values, "a data type: its values are EMF's texts");
        }
    }

    private void tellReference(EReference reference) {
        if (Maps.isMap(reference)) {
            remark(reference, "a map: where two people put one key, an update keeps both entries");
        }
        if (!reference.getEKeys().isEmpty()) {
            remark(reference, "its eKeys are left out");
        }
        if (reference.isMany() && !reference.isUnique() && !reference.isContainment()) {
            remark(reference, "a target stands once in it");
        }
        if (reference.getEOpposite() == reference) {
            remark(reference, "it is its own opposite: here it has none");
        } else if (reference.getEOpposite() != null && !reference.isContainment() && !reference.isContainer() && !Profile.isPaired(reference)) {
            remark(reference, "its opposite is left out");
        }
    }

    private void remark(ENamedElement where, String what) {
        remarks.add(path(where) + ": " + what);
    }
}
