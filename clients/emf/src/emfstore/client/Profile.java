package emfstore.client;

import java.util.ArrayList;
import java.util.Collection;
import java.util.HashMap;
import java.util.HashSet;
import java.util.LinkedHashMap;
import java.util.List;
import java.util.Map;
import java.util.Set;
import java.util.TreeMap;
import org.eclipse.emf.ecore.EAttribute;
import org.eclipse.emf.ecore.EClass;
import org.eclipse.emf.ecore.EClassifier;
import org.eclipse.emf.ecore.EDataType;
import org.eclipse.emf.ecore.EEnum;
import org.eclipse.emf.ecore.EEnumLiteral;
import org.eclipse.emf.ecore.EPackage;
import org.eclipse.emf.ecore.EReference;
import org.eclipse.emf.ecore.EStructuralFeature;
import org.eclipse.emf.ecore.EcorePackage;

/**
 * What stands for each class and feature of Ecore packages in the one metamodel of a project. It depends on the packages and their order alone, so
 * all tools that are given the same files have the same names.
 */
public final class Profile {
    /** What a feature is to the program. A skipped one is known by name and holds nothing; neither does the reference to the container. */
    enum Kind { SKIPPED, ATTRIBUTE, CONTAINMENT, CONTAINER, REFERENCE }

    /** A feature under the name that it has in the program. */
    record Feature(EStructuralFeature ecore, String name, Kind kind) {
        boolean isMany() {
            return ecore.isMany();
        }

        EAttribute attribute() {
            return (EAttribute) ecore;
        }

        EReference reference() {
            return (EReference) ecore;
        }
    }

    private static final int NAME_BYTES = 128;
    private static final Set<String> KEYS = Set.of("eClass", "_id", "$ref");

    private final String name;
    private final String nsUri;
    private final Map<EClassifier, String> classifiers = new LinkedHashMap<>();
    private final Map<String, EClass> classes = new LinkedHashMap<>();
    private final Map<EEnumLiteral, String> literals = new HashMap<>();
    private final Map<EStructuralFeature, Feature> features = new HashMap<>();
    private final Map<EClass, Map<String, Feature>> ofClasses = new HashMap<>();
    private final List<String> remarks = new ArrayList<>();

    /** The metamodel of these packages, with all that they reach; it has the name and the nsURI of the first one. */
    public Profile(List<EPackage> packages) {
        EPackage first = packages.get(0);
        nsUri = first.getNsURI() == null ? "" : first.getNsURI();
        name = formed(first.getName() == null ? "" : first.getName());
        Reach reach = new Reach(packages, remarks);
        reach.classifiers().forEach(this::nameClassifier);
        Set<EStructuralFeature> taken = clashes(classes.values());
        for (EClass owner : classes.values()) {
            owner.getEStructuralFeatures().forEach(it -> features.put(it, new Feature(it, nameOf(it, taken.contains(it)), kind(it))));
        }
        classes.values().forEach(it -> ofClasses.put(it, featuresOf(it)));
    }

    /** The metamodel's document, which is the block of `init` and of `evolve`. */
    public String metamodel() {
        return new MetamodelText(this).text();
    }

    String name() {
        return name;
    }

    String nsUri() {
        return nsUri;
    }

    /** The classifiers that the metamodel declares, in its order. */
    Collection<EClassifier> classifiers() {
        return classifiers.keySet();
    }

    /** The name of a classifier, or null where the metamodel has none for it. */
    String name(EClassifier classifier) {
        return classifiers.get(classifier);
    }

    /** The name of a literal. Its text, by which values go, is the literal's own. */
    String name(EEnumLiteral literal) {
        return literals.get(literal);
    }

    /** The class of that name, or null. */
    public EClass classNamed(String wanted) {
        return classes.get(wanted);
    }

    Feature feature(EStructuralFeature feature) {
        return features.get(feature);
    }

    /** The features of a class, inherited ones too, by name in the order of their bytes. */
    Map<String, Feature> features(EClass owner) {
        return ofClasses.get(owner);
    }

    /** The opposite of a plain reference, where the program has the two as one. */
    EReference opposite(EReference reference) {
        return isPaired(reference) ? reference.getEOpposite() : null;
    }

    /** The supertypes that the metamodel declares: Ecore's own, and `EObject` above all others where a feature has it as its type. */
    List<EClass> superTypes(EClass owner) {
        List<EClass> above = owner.getESuperTypes().stream().filter(classifiers::containsKey).toList();
        EClass top = EcorePackage.Literals.EOBJECT;
        boolean isBelow = above.isEmpty() && owner != top && classifiers.containsKey(top);
        return isBelow ? List.of(top) : above;
    }

    /** What Ecore has here and the program hasn't, a line each. */
    public List<String> remarks() {
        return remarks;
    }

    /** Whether EMF's files hold the feature, so that the program is to hold it. */
    static boolean isStored(EStructuralFeature feature) {
        EClassifier type = feature.getEType();
        boolean isComputed = !feature.isChangeable() && (feature.isVolatile() || feature.isDerived());
        boolean isTyped = type != null && !type.eIsProxy() && (!(type instanceof EDataType values) || values.isSerializable());
        return !feature.isTransient() && !isComputed && isTyped && (feature.isMany() || feature.getUpperBound() == 1);
    }

    /** Whether a reference and its opposite name each other, in a way that the program has. */
    static boolean isPaired(EReference reference) {
        EReference other = reference.getEOpposite();
        return other != null && other != reference && other.getEOpposite() == reference
                && isDeclaredFor(reference, other) && isDeclaredFor(other, reference)
                && isStored(reference) && isStored(other) && !(reference.isContainment() && other.isContainment());
    }

    private static boolean isDeclaredFor(EReference reference, EReference other) {
        return other.getEReferenceType() == reference.getEContainingClass();
    }

    private void nameClassifier(EClassifier classifier) {
        String plain = formed(classifier.getName());
        String found = plain;
        for (EPackage around = classifier.getEPackage(); classifiers.containsValue(found) && around != null; around = around.getESuperPackage()) {
            found = formed(around.getName() + "_" + found);
        }
        while (classifiers.containsValue(found)) {
            found = formed(found + "_");
        }
        if (!found.equals(classifier.getName())) {
            remark(Reach.path(classifier), "its name here is " + found);
        }
        classifiers.put(classifier, found);
        if (classifier instanceof EClass named) {
            classes.put(found, named);
        } else if (classifier instanceof EEnum listed) {
            nameLiterals(listed);
        }
    }

    /** Names literals: first those whose own name is one, so that no other takes it. */
    private void nameLiterals(EEnum listed) {
        Set<String> taken = new HashSet<>();
        listed.getELiterals().stream().map(EEnumLiteral::getName).filter(it -> formed(it).equals(it)).forEach(taken::add);
        for (EEnumLiteral literal : listed.getELiterals()) {
            String found = formed(literal.getName());
            if (!found.equals(literal.getName())) {
                while (!taken.add(found)) {
                    found = formed(found + "_");
                }
                remark(Reach.path(literal), "its name here is " + found);
            }
            literals.put(literal, found);
        }
    }

    private Kind kind(EStructuralFeature feature) {
        if (!isStored(feature)) {
            return Kind.SKIPPED;
        }
        if (feature instanceof EAttribute) {
            return Kind.ATTRIBUTE;
        }
        EReference reference = (EReference) feature;
        if (reference.isContainer()) {
            return isPaired(reference) ? Kind.CONTAINER : Kind.SKIPPED;
        }
        return reference.isContainment() ? Kind.CONTAINMENT : Kind.REFERENCE;
    }

    private String nameOf(EStructuralFeature feature, boolean isTaken) {
        String plain = formed(feature.getName());
        String found = isTaken ? formed(classifiers.get(feature.getEContainingClass()) + "_" + plain) : KEYS.contains(plain) ? plain + "_" : plain;
        if (!found.equals(feature.getName())) {
            remark(Reach.path(feature), "its name here is " + found);
        }
        return found;
    }

    private Map<String, Feature> featuresOf(EClass owner) {
        Map<String, Feature> found = new TreeMap<>();
        for (EStructuralFeature feature : owner.getEAllStructuralFeatures()) {
            if (features.containsKey(feature)) {
                found.put(features.get(feature).name(), features.get(feature));
            }
        }
        return found;
    }

    /** The features whose name another feature of some class has before them. */
    private static Set<EStructuralFeature> clashes(Collection<EClass> classes) {
        Set<EStructuralFeature> found = new HashSet<>();
        for (EClass owner : classes) {
            Map<String, EStructuralFeature> named = new HashMap<>();
            for (EStructuralFeature feature : owner.getEAllStructuralFeatures()) {
                if (named.putIfAbsent(formed(feature.getName()), feature) != null) {
                    found.add(feature);
                }
            }
        }
        return found;
    }

    /** The text as a name: letters, digits, `_` and `$`, the first no digit. */
    private static String formed(String text) {
        String found = text.replaceAll("[^A-Za-z0-9_$]", "_");
        if (found.isEmpty() || Character.isDigit(found.charAt(0))) {
            found = "_" + found;
        }
        return found.length() > NAME_BYTES ? found.substring(found.length() - NAME_BYTES) : found;
    }

    private void remark(String where, String what) {
        remarks.add(where + ": " + what);
    }
}
