package emfstore.bundle;

import emfstore.client.Metamodels;
import emfstore.client.Profile;
import emfstore.client.Store;
import emfstore.client.StoreResource;
import emfstore.client.StoreResourceFactory;
import java.io.IOException;
import java.nio.file.Path;
import java.util.List;
import java.util.Map;
import org.eclipse.emf.ecore.EClass;
import org.eclipse.emf.ecore.EPackage;
import org.eclipse.emf.ecore.resource.Resource;
import org.eclipse.emf.ecore.resource.ResourceSet;
import org.eclipse.emf.ecore.resource.impl.ResourceSetImpl;
import org.eclipse.emf.ecore.util.EcoreUtil;
import org.osgi.framework.BundleActivator;
import org.osgi.framework.BundleContext;

/** A bundle that opens a store as it starts, and edits and saves a resource of it. */
public final class Probe implements BundleActivator {
    @Override
    public void start(BundleContext context) throws IOException {
        Path program = Path.of(context.getProperty("probe.program"));
        Path folder = Path.of(context.getProperty("probe.folder"));
        List<EPackage> packages = new Metamodels(List.of(context.getProperty("probe.ecore"))).packages();
        try (Store store = new Store(program, folder)) {
            store.send("init", new Profile(packages).metamodel());
        }
        try (StoreResourceFactory factory = new StoreResourceFactory(program)) {
            ResourceSet set = new ResourceSetImpl();
            factory.register(set);
            Resource resource = set.createResource(StoreResourceFactory.uri(folder, "trunk"));
            resource.load(Map.of(StoreResource.PACKAGES, packages));
            resource.getContents().add(EcoreUtil.create((EClass) packages.get(0).getEClassifier("Part")));
            resource.save(Map.of(StoreResource.MESSAGE, "from a bundle"));
        }
    }

    @Override
    public void stop(BundleContext context) {
        // Nothing is left to be ended.
    }
}
