package emfstore.client;

import java.math.BigDecimal;
import java.util.Set;
import org.eclipse.emf.ecore.EAttribute;
import org.eclipse.emf.ecore.EDataType;
import org.eclipse.emf.ecore.EcorePackage;
import org.eclipse.emf.ecore.util.EcoreUtil;

/** Values of attributes as JSON, and back. A data type that the program has not itself has EMF's own texts as its values. */
final class Values {
    private static final Set<String> PLAIN = Set.of("EString", "EBoolean", "EByte", "EShort", "EInt", "ELong");

    private Values() {
    }

    /** Whether the program has this type of Ecore itself. */
    static boolean isPlain(EDataType type) {
        return PLAIN.contains(type.getName()) && type.getEPackage() != null && EcorePackage.eNS_URI.equals(type.getEPackage().getNsURI());
    }

    static String json(EAttribute attribute, Object value) {
        EDataType type = attribute.getEAttributeType();
        if (value == null) {
            return "null";
        }
        boolean isBare = isPlain(type) && !type.getName().equals("EString");
        return isBare ? value.toString() : Json.quote(text(type, value));
    }

    /** The text by which EMF writes a value, in a default as in a file. */
    static String text(EDataType type, Object value) {
        return isPlain(type) ? value.toString() : EcoreUtil.convertToString(type, value);
    }

    static Object value(EAttribute attribute, Object json) {
        EDataType type = attribute.getEAttributeType();
        if (!isPlain(type)) {
            return EcoreUtil.createFromString(type, (String) json);
        }
        return switch (type.getName()) {
            case "EByte" -> ((BigDecimal) json).byteValueExact();
            case "EShort" -> ((BigDecimal) json).shortValueExact();
            case "EInt" -> ((BigDecimal) json).intValueExact();
            case "ELong" -> ((BigDecimal) json).longValueExact();
            default -> json;
        };
    }
}
