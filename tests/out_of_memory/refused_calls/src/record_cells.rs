use records::{
    Assembly, AssemblyOS, AssemblyProcessor, AssemblyRef, AssemblyRefOS, AssemblyRefProcessor,
    ClassLayout, Constant, CustomAttribute, DeclSecurity, Event, EventMap, ExportedType, Field,
    FieldLayout, FieldMarshal, FieldRVA, File, GenericParam, GenericParamConstraint, ImplMap,
    InterfaceImpl, ManifestResource, MemberRef, MethodDef, MethodImpl, MethodSemantics, MethodSpec,
    Module, ModuleRef, NestedClass, Param, Property, PropertyMap, Record, StandAloneSig, TypeDef,
    TypeRef, TypeSpec,
};
use one_refusal::{Run, Stop, kept};
use owned_model::{Bytes, Cell, TableId, Text, Token};
use schema::{ColumnKind, SigKind, columns};
use signatures::decode;

/// A blob that encodes a signature in each kind of column.
fn encoded(kind: SigKind) -> &'static [u8] {
    match kind {
        SigKind::Field | SigKind::MemberRef => b"\x06\x1D\x08",
        SigKind::MethodDef => b"\0\x01\x01\x0E",
        SigKind::StandAlone => b"\x07\x02\x08\x0E",
        SigKind::Property => b"\x28\x01\x08\x0E",
        SigKind::TypeSpec => b"\x14\x08\x01\x01\x02\x01\0",
        SigKind::Instance => b"\x0A\x02\x08\x0E",
    }
}

/// A cell of a kind; none of padding.
fn cell_of(run: &Run, kind: ColumnKind) -> Result<Option<Cell>, Stop> {
    Ok(match kind {
        ColumnKind::U8 | ColumnKind::U16 | ColumnKind::U32 => Some(Cell::Number(1)),
        ColumnKind::Padding => None,
        ColumnKind::Text => Some(Cell::Text(Text::from(String::from_str(run.alloc, "text")?))),
        ColumnKind::Guid => Some(Cell::Guid(Some([7; 16]))),
        ColumnKind::Blob => {
            let blob = Vec::from_slice(run.alloc, b"\x01\x02\x03".as_slice())?;
            Some(Cell::Bytes(Bytes::from(blob)))
        }
        ColumnKind::Signature(column) => {
            Some(Cell::Sig(decode(run.alloc, encoded(column), column)?))
        }
        ColumnKind::Row(table) => Some(Cell::Ref(Some(Token { table, row: 1 }))),
        ColumnKind::Coded(_) => Some(Cell::Ref(None)),
        ColumnKind::List(_) => Some(Cell::Start(1)),
    })
}

/// A row of a table, each of whose cells is of the kind of its column.
fn row_of(run: &Run, table: TableId) -> Result<Vec<Cell>, Stop> {
    let mut cells = Vec::new(run.alloc);
    for column in columns(table) {
        if let Some(cell) = cell_of(run, column.kind)? {
            cells.push(cell)?;
        }
    }
    Ok(cells)
}

/// That the record of cells gives them back, again where memory was refused.
fn given_back<'m, R: Record<'m> + Drop>(run: &Run, cells: &'m [Cell]) -> Result<(), Stop> {
    let Some(record) = R::from_cells(cells) else {
        return Err(Stop::Broken("cells of a table's kinds are a record"));
    };
    let back = match record.cells(run.alloc) {
        Ok(back) => back,
        Err(_) => run.again(record.cells(run.alloc))?,
    };
    kept(back.as_slice() == cells, "a record gives its cells back")
}

/// Records of types and what stands in them.
pub fn types(run: &Run) -> Result<(), Stop> {
    given_back::<ClassLayout>(run, &row_of(run, TableId::ClassLayout)?)?;
    given_back::<GenericParam>(run, &row_of(run, TableId::GenericParam)?)?;
    given_back::<GenericParamConstraint>(run, &row_of(run, TableId::GenericParamConstraint)?)?;
    given_back::<InterfaceImpl>(run, &row_of(run, TableId::InterfaceImpl)?)?;
    given_back::<MethodSpec<_>>(run, &row_of(run, TableId::MethodSpec)?)?;
    given_back::<Module>(run, &row_of(run, TableId::Module)?)?;
    given_back::<NestedClass>(run, &row_of(run, TableId::NestedClass)?)?;
    given_back::<TypeDef>(run, &row_of(run, TableId::TypeDef)?)?;
    given_back::<TypeRef>(run, &row_of(run, TableId::TypeRef)?)?;
    given_back::<TypeSpec<_>>(run, &row_of(run, TableId::TypeSpec)?)?;
    Ok(())
}

/// Records of members.
pub fn members(run: &Run) -> Result<(), Stop> {
    given_back::<Event>(run, &row_of(run, TableId::Event)?)?;
    given_back::<EventMap>(run, &row_of(run, TableId::EventMap)?)?;
    given_back::<Field>(run, &row_of(run, TableId::Field)?)?;
    given_back::<FieldLayout>(run, &row_of(run, TableId::FieldLayout)?)?;
    given_back::<FieldMarshal>(run, &row_of(run, TableId::FieldMarshal)?)?;
    given_back::<FieldRVA>(run, &row_of(run, TableId::FieldRVA)?)?;
    given_back::<MemberRef>(run, &row_of(run, TableId::MemberRef)?)?;
    given_back::<MethodDef>(run, &row_of(run, TableId::MethodDef)?)?;
    given_back::<MethodImpl>(run, &row_of(run, TableId::MethodImpl)?)?;
    given_back::<MethodSemantics>(run, &row_of(run, TableId::MethodSemantics)?)?;
    given_back::<Param>(run, &row_of(run, TableId::Param)?)?;
    given_back::<Property>(run, &row_of(run, TableId::Property)?)?;
    given_back::<PropertyMap>(run, &row_of(run, TableId::PropertyMap)?)?;
    given_back::<StandAloneSig<_>>(run, &row_of(run, TableId::StandAloneSig)?)?;
    Ok(())
}

/// Records of assemblies and what is attached.
pub fn assemblies(run: &Run) -> Result<(), Stop> {
    given_back::<Assembly>(run, &row_of(run, TableId::Assembly)?)?;
    given_back::<AssemblyOS>(run, &row_of(run, TableId::AssemblyOS)?)?;
    given_back::<AssemblyProcessor>(run, &row_of(run, TableId::AssemblyProcessor)?)?;
    given_back::<AssemblyRef>(run, &row_of(run, TableId::AssemblyRef)?)?;
    given_back::<AssemblyRefOS>(run, &row_of(run, TableId::AssemblyRefOS)?)?;
    given_back::<AssemblyRefProcessor>(run, &row_of(run, TableId::AssemblyRefProcessor)?)?;
    given_back::<Constant>(run, &row_of(run, TableId::Constant)?)?;
    given_back::<CustomAttribute>(run, &row_of(run, TableId::CustomAttribute)?)?;
    given_back::<DeclSecurity>(run, &row_of(run, TableId::DeclSecurity)?)?;
    given_back::<ExportedType>(run, &row_of(run, TableId::ExportedType)?)?;
    given_back::<File>(run, &row_of(run, TableId::File)?)?;
    given_back::<ImplMap>(run, &row_of(run, TableId::ImplMap)?)?;
    given_back::<ManifestResource>(run, &row_of(run, TableId::ManifestResource)?)?;
    given_back::<ModuleRef>(run, &row_of(run, TableId::ModuleRef)?)?;
    Ok(())
}
