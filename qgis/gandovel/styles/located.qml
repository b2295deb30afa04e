<!DOCTYPE qgis PUBLIC 'http://mrcc.com/qgis.dtd' 'SYSTEM'>
<qgis version="3.22" styleCategories="Symbology">
  <renderer-v2 type="categorizedSymbol" attr="where" forceraster="0" symbollevels="0">
    <categories>
      <category value="inside" label="Inside a parcel" symbol="0" render="true"/>
      <category value="edge" label="On a border" symbol="1" render="true"/>
      <category value="outside" label="Outside" symbol="2" render="true"/>
    </categories>
    <symbols>
      <symbol type="marker" name="0" alpha="1" clip_to_extent="1" force_rhr="0">
        <layer class="SimpleMarker" enabled="1" pass="0" locked="0">
          <prop k="name" v="circle"/>
          <prop k="color" v="0,158,115,255"/>
          <prop k="outline_color" v="40,40,40,255"/>
          <prop k="outline_width" v="0.2"/>
          <prop k="size" v="2.4"/>
          <prop k="size_unit" v="MM"/>
        </layer>
      </symbol>
      <symbol type="marker" name="1" alpha="1" clip_to_extent="1" force_rhr="0">
        <layer class="SimpleMarker" enabled="1" pass="0" locked="0">
          <prop k="name" v="square"/>
          <prop k="color" v="230,159,0,255"/>
          <prop k="outline_color" v="40,40,40,255"/>
          <prop k="outline_width" v="0.2"/>
          <prop k="size" v="2.4"/>
          <prop k="size_unit" v="MM"/>
        </layer>
      </symbol>
      <symbol type="marker" name="2" alpha="1" clip_to_extent="1" force_rhr="0">
        <layer class="SimpleMarker" enabled="1" pass="0" locked="0">
          <prop k="name" v="diamond"/>
          <prop k="color" v="204,30,110,255"/>
          <prop k="outline_color" v="40,40,40,255"/>
          <prop k="outline_width" v="0.2"/>
          <prop k="size" v="2.4"/>
          <prop k="size_unit" v="MM"/>
        </layer>
      </symbol>
    </symbols>
  </renderer-v2>
</qgis>
