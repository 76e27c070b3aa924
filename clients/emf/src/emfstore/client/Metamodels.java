package emfstore.client;

import java.io.IOException;
import java.util.ArrayList;
import java.util.List;
import java.util.Map;
import org.eclipse.emf.common.util.URI;
import org.eclipse.emf.ecore.EClass;
import org.eclipse.emf.ecore.EObject;
import org.eclipse.emf.ecore.EPackage;
import org.eclipse.emf.ecore.EcorePackage;
import org.eclipse.emf.ecore.resource.Resource;
import org.eclipse.emf.ecore.resource.ResourceSet;
import org.eclipse.emf.ecore.resource.impl.ResourceSetImpl;
import org.eclipse.emf.ecore.xmi.XMLResource;
import org.eclipse.emf.ecore.xmi.impl.EcoreResourceFactoryImpl;
import org.eclipse.emf.ecore.xmi.impl.XMIResourceImpl;
import org.eclipse.emf.ecore.xml.type.XMLTypePackage;

/** The files of EMF that the tools read and write. */
public final class Metamodels {
    private static final Map<String, EPackage> OF_EMF = Map.of(
            "/org.eclipse.emf.ecore/model/Ecore.ecore", EcorePackage.eINSTANCE,
            "/org.eclipse.emf.ecore/model/XMLType.ecore", XMLTypePackage.eINSTANCE);

    private final ResourceSet set = new Files();
    private final List<EPackage> packages = new ArrayList<>();

    /**
     * Loads metamodels. Models of their packages can be loaded then.
     *
     * @throws IOException where a file can't be read, or holds something else than packages
     */
    public Metamodels(List<String> ecoreFiles) throws IOException {
        for (String file : ecoreFiles) {
            for (EObject root : load(file).getContents()) {
                if (!(root instanceof EPackage found)) {
                    throw new IOException(file + ": " + root.eClass().getName() + " is no package");
                }
                packages.add(EcorePackage.eNS_URI.equals(found.getNsURI()) ? EcorePackage.eINSTANCE : found);
                register(found);
            }
        }
    }

    /** The packages of the files, in their order; Ecore's own is the one that EMF has in memory. */
    public List<EPackage> packages() {
        return packages;
    }

    /**
     * A file as EMF reads it.
     *
     * @throws IOException where it can't be read
     */
    public Resource load(String file) throws IOException {
        try {
            return set.getResource(URI.createFileURI(new java.io.File(file).getAbsolutePath()), true);
        } catch (RuntimeException fault) {
            throw new IOException(file + ": " + (fault.getCause() == null ? fault : fault.getCause()).getMessage(), fault);
        }
    }

    /** An empty resource for a model of these packages, which keeps an id for each element. */
    public XMLResource create(String file) {
        XMIResourceImpl created = new Model(URI.createFileURI(new java.io.File(file).getAbsolutePath()));
        created.setEncoding("UTF-8");
        set.getResources().add(created);
        return created;
    }

    private void register(EPackage found) {
        if (!EcorePackage.eNS_URI.equals(found.getNsURI())) {
            set.getPackageRegistry().put(found.getNsURI(), found);
        }
        found.getESubpackages().forEach(this::register);
    }

    /** A file with a model. EMF would walk all of it for each reference to an element that comes later, to look for an attribute that is an id. */
    private static final class Model extends XMIResourceImpl {
        /** How many files were loaded when it was last looked for an id. */
        private int looked;
        private boolean hasId;

        Model(URI uri) {
            super(uri);
        }

        @Override
        protected EObject getEObjectByID(String id) {
            EObject found = getIDToEObjectMap().get(id);
            boolean isWalked = found == null && (getResourceSet() == null || hasIdAttribute());
            return isWalked ? super.getEObjectByID(id) : found;
        }

        /** Whether a class of the metamodels that are loaded by now has such an attribute. */
        private boolean hasIdAttribute() {
            if (looked != getResourceSet().getResources().size()) {
                looked = getResourceSet().getResources().size();
                hasId = getResourceSet().getResources().stream().flatMap(it -> it.getContents().stream()).filter(EPackage.class::isInstance)
                        .anyMatch(Metamodels::hasIdAttribute);
            }
            return hasId;
        }
    }

    private static boolean hasIdAttribute(EObject element) {
        boolean isInPackage = element instanceof EPackage whole && whole.eContents().stream().anyMatch(Metamodels::hasIdAttribute);
        return isInPackage || element instanceof EClass owner && owner.getEIDAttribute() != null;
    }

    /** Files, and the packages that EMF has in memory wherever a document names their file. */
    private static final class Files extends ResourceSetImpl {
        Files() {
            Map<String, Object> factories = getResourceFactoryRegistry().getExtensionToFactoryMap();
            factories.put("ecore", new EcoreResourceFactoryImpl());
            factories.put("*", (Resource.Factory) Model::new);
        }

        @Override
        public Resource getResource(URI uri, boolean loadOnDemand) {
            for (Map.Entry<String, EPackage> known : OF_EMF.entrySet()) {
                if (uri.toString().endsWith(known.getKey())) {
                    return known.getValue().eResource();
                }
            }
            return super.getResource(uri, loadOnDemand);
        }
    }
}
