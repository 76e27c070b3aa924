package emfstore.client;

import emfstore.client.Profile.Feature;
import emfstore.client.Profile.Kind;
import java.util.ArrayList;
import java.util.LinkedHashMap;
import java.util.List;
import java.util.Map;
import java.util.stream.Collectors;
import org.eclipse.emf.ecore.EAttribute;
import org.eclipse.emf.ecore.EClass;
import org.eclipse.emf.ecore.EClassifier;
import org.eclipse.emf.ecore.EDataType;
import org.eclipse.emf.ecore.EEnum;
import org.eclipse.emf.ecore.EEnumLiteral;
import org.eclipse.emf.ecore.EReference;
import org.eclipse.emf.ecore.EStructuralFeature;
import org.eclipse.emf.ecore.EcorePackage;
import org.eclipse.emf.ecore.ETypedElement;

/** The text of a metamodel, as the block of `init` has it. */
final class MetamodelText {
    private static final String ECORE = EcorePackage.eNS_URI + "#//";

    private final Profile profile;

    MetamodelText(Profile profile) {
        this.profile = profile;
    }

    /** The lines of the package, a line for each classifier and each feature. */
    String text() {
        Map<String, String> keys = keys("EPackage", profile.name());
        keys.put("nsURI", Json.quote(profile.nsUri()));
        keys.put("eClassifiers", list(profile.classifiers().stream().map(this::classifier).toList()));
        return object(keys) + "\n";
    }

    private String classifier(EClassifier classifier) {
        if (classifier instanceof EClass owner) {
            return ofClass(owner);
        }
        boolean isEnum = classifier instanceof EEnum listed && !listed.getELiterals().isEmpty();
        Map<String, String> keys = keys(isEnum ? "EEnum" : "EDataType", profile.name(classifier));
        if (isEnum) {
            keys.put("eLiterals", list(((EEnum) classifier).getELiterals().stream().map(this::literal).toList()));
        } else if (classifier.getInstanceTypeName() != null) {
            keys.put("instanceTypeName", Json.quote(classifier.getInstanceTypeName()));
        }
        return object(keys);
    }

    private String ofClass(EClass owner) {
        Map<String, String> keys = keys("EClass", profile.name(owner));
        if (owner.isAbstract() || owner.isInterface()) {
            keys.put("abstract", "true");
        }
        List<EClass> above = profile.superTypes(owner);
        if (!above.isEmpty()) {
            keys.put("eSuperTypes", above.stream().map(it -> reference(classifierName(it))).collect(Collectors.joining(",", "[", "]")));
        }
        if (!owner.getEStructuralFeatures().isEmpty()) {
            keys.put("eStructuralFeatures", list(owner.getEStructuralFeatures().stream().map(it -> feature(profile.feature(it))).toList()));
        }
        return object(keys);
    }

    private String literal(EEnumLiteral literal) {
        Map<String, String> keys = new LinkedHashMap<>();
        keys.put("name", Json.quote(profile.name(literal)));
        if (!literal.getLiteral().equals(profile.name(literal))) {
            keys.put("literal", Json.quote(literal.getLiteral()));
        }
        keys.put("value", String.valueOf(literal.getValue()));
        return object(keys);
    }

    private String feature(Feature feature) {
        EStructuralFeature ecore = feature.ecore();
        Map<String, String> keys = keys(ecore instanceof EReference ? "EReference" : "EAttribute", feature.name());
        if (feature.kind() == Kind.SKIPPED) {
            keys.put("eType", reference(ECORE + (ecore instanceof EReference ? "EObject" : "EString")));
            keys.put("transient", "true");
            return object(keys);
        }
        putBounds(keys, ecore);
        if (ecore instanceof EReference reference) {
            putReference(keys, reference);
        } else {
            putAttribute(keys, feature.attribute());
        }
        return object(keys);
    }

    private static void putBounds(Map<String, String> keys, ETypedElement feature) {
        int upper = feature.getUpperBound();
        int lower = Math.max(0, upper < 0 ? feature.getLowerBound() : Math.min(feature.getLowerBound(), upper));
        if (lower > 0) {
            keys.put("lowerBound", String.valueOf(lower));
        }
        if (upper != 1) {
            keys.put("upperBound", String.valueOf(upper));
        }
    }

    private void putReference(Map<String, String> keys, EReference reference) {
        if (reference.isContainment()) {
            keys.put("containment", "true");
        }
        keys.put("eType", reference(classifierName(reference.getEReferenceType())));
        if (Profile.isPaired(reference)) {
            EReference other = reference.getEOpposite();
            keys.put("eOpposite", reference(classifierName(other.getEContainingClass()) + "/" + profile.feature(other).name()));
        }
    }

    private void putAttribute(Map<String, String> keys, EAttribute attribute) {
        EDataType type = attribute.getEAttributeType();
        keys.put("eType", reference(Values.isPlain(type) ? ECORE + type.getName() : classifierName(type)));
        if (attribute.isMany() && !attribute.isUnique()) {
            keys.put("unique", "false");
        }
        boolean isDefaultOfType = attribute.getDefaultValueLiteral() == null && (Values.isPlain(type) || type instanceof EEnum);
        if (!attribute.isMany() && !isDefaultOfType && attribute.getDefaultValue() != null) {
            keys.put("defaultValueLiteral", Json.quote(Values.text(type, attribute.getDefaultValue())));
        }
    }

    private String classifierName(EClassifier classifier) {
        return "//" + profile.name(classifier);
    }

    private static Map<String, String> keys(String eClass, String name) {
        Map<String, String> keys = new LinkedHashMap<>();
        keys.put("eClass", Json.quote(ECORE + eClass));
        keys.put("name", Json.quote(name));
        return keys;
    }

    private static String reference(String target) {
        return "{\"$ref\":" + Json.quote(target) + "}";
    }

    private static String list(List<String> parts) {
        return parts.stream().collect(Collectors.joining(",\n", "[\n", "]"));
    }

    private static String object(Map<String, String> keys) {
        List<String> parts = new ArrayList<>();
        keys.forEach((key, value) -> parts.add(Json.quote(key) + ":" + value));
        return "{" + String.join(",", parts) + "}";
    }
}
