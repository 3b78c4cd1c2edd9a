//! What goes wrong, in words: limits that say why, and one error for functions that use `?` on whatever they call.
use pit_host::{
    Capacity, Durable, Error, Failure, Limits, LimitsError, Line, Options, PageIndex, Store,
};
use std::path::Path;

/// A new site: its store, its windows, its folder, and the first survey.
fn open_site(
    limits: Limits,
    windows: &str,
    folder: &Path,
    page: &[u8],
) -> Result<Durable, Failure> {
    let mut store = Store::format(limits)?; // an Error
    store.set_windows(windows)?; // a WindowsError
    let model = Durable::create(folder, store, Options::new())?; // a Failure
    model.append_pages(Line(0), &[page])?;
    Ok(model)
}

/// What a site's people read where it could not be opened.
fn told(failure: &Failure) -> String {
    match failure {
        Failure::Refused(Error::PageLength) => "send pages of 256 bytes".into(),
        Failure::Windows(refused) => format!("look at the list of windows: {refused}"),
        Failure::File(error) => format!("look at the disk: {error}"),
        other => other.to_string(),
    }
}

fn main() -> Result<(), Failure> {
    // plans that no store takes
    let refused = Limits::worst(256, 4_096, 4_096, 16).unwrap_err();
    let (of, asked, most) = (Capacity::Pages, 65_536, 65_535);
    assert_eq!(refused, LimitsError::Capacity { of, asked, most });
    println!("{refused}");
    let refused = Limits::worst(256, 64, 100, 65).unwrap_err();
    let words = "limits not allowed: each update has 65 pages, and an update has 1 to 64";
    assert_eq!(refused.to_string(), words);
    println!("{refused}");

    let limits = Limits::worst(256, 64, 100, 4)?; // a LimitsError
    let folder = &std::env::temp_dir().join(format!("pit-example-errors-{}", std::process::id()));
    let failure = open_site(limits, "600,660\n600,600\n", folder, &[1; 256]).unwrap_err();
    assert_eq!(failure.error(), Some(Error::WrongWindow));
    println!("{}", told(&failure));
    assert!(told(&failure).ends_with("line 2, \"600,600\": from and to are equal"));

    let nowhere = Path::new("/proc/no-site");
    let failure = open_site(limits, "", nowhere, &[1; 256]).unwrap_err();
    assert!(failure.error().is_none() && told(&failure).starts_with("look at the disk: "));
    println!("{}", told(&failure));

    let failure = open_site(limits, "", folder, &[1; 255]).unwrap_err();
    assert_eq!(failure.error().map(|refused| refused.number()), Some(11));
    assert_eq!(told(&failure), "send pages of 256 bytes");

    // the folder is there now, with an empty store
    let (model, _) = Durable::open(folder, Options::new())?;
    let refused = model
        .update(Line(0), PageIndex(1), &[&[1; 256]])
        .unwrap_err();
    assert_eq!(refused.error(), Some(Error::PastEnd));
    println!("{refused}");
    drop(model);
    std::fs::remove_dir_all(folder).expect("nobody has it open");
    Ok(())
}
